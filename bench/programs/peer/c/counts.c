/* counts CALL N: makes N calls of one kind upon the store as a library, for callgrind, which counts what they
 * take and nothing before or after them. `hit` reads an author who was read before, `first` one who was not,
 * `vote` votes, with one fence behind all, and `shown` votes, waits by a fence and reads the story's author. */
#include <stdint.h>
#include <stdio.h>
#include <stdlib.h>
#include <string.h>
#include <unistd.h>
#include <valgrind/callgrind.h>

enum { AUTHORS = 400, ROWS = 4, STORIES = ROWS * AUTHORS, WARM = 200, VOTES_OF_FIRST = 10 };

typedef void (*peer_row)(void *sink, uint64_t story, uint64_t author, const char *title, uint64_t length,
                         uint64_t votes);

void *peer_open(uint64_t stories, uint64_t authors, uint64_t sessions);
void *peer_session(void *store, uint64_t number);
int peer_story(void *session, uint64_t id, uint64_t author, const char *title, uint64_t length);
int peer_vote(void *session, uint64_t id, uint64_t story, int64_t weight);
int64_t peer_read(void *session, uint64_t author, void *sink, peer_row row);
int peer_fence(void *session);
void peer_close(void *store);

static void *session;
static uint64_t votes[STORIES], all_votes;
static uint64_t asked = STORIES, seen; /* a story, and the votes that the last answer gave it */
static uint64_t order[AUTHORS];

static uint64_t below(uint64_t limit) {
  static uint64_t state = 12345;
  state ^= state << 13;
  state ^= state >> 7;
  state ^= state << 17;
  return (uint32_t)(state >> 20) % limit;
}

static void must(_Bool holds, const char *else_what) {
  if (holds)
    return;
  fprintf(stderr, "%s\n", else_what);
  exit(1);
}

static void take(void *sink, uint64_t story, uint64_t author, const char *title, uint64_t length,
                 uint64_t count) {
  (void)sink, (void)author, (void)title, (void)length;
  if (story == asked)
    seen = count;
}

static void vote(uint64_t story) {
  votes[story]++;
  must(!peer_vote(session, all_votes++, story, 1), "a vote is refused");
}

static void fence(void) { must(!peer_fence(session), "a fence is refused"); }

static void read_author(uint64_t author) {
  must(peer_read(session, author, NULL, take) == ROWS, "an answer has not four rows");
}

static void show(uint64_t story) {
  asked = story;
  seen = 0;
  vote(story);
  fence();
  read_author(story % AUTHORS);
  must(seen == votes[story], "a vote is not shown");
}

static void make(char kind, uint64_t calls) {
  for (uint64_t i = 0; i < calls; i++) {
    if (kind == 'h')
      read_author(below(AUTHORS));
    else if (kind == 'f')
      read_author(order[i]);
    else if (kind == 'v')
      vote(below(STORIES));
    else
      show(below(STORIES));
  }
  if (kind == 'v')
    fence();
}

static char kind_of(const char *word) {
  static const char *const kinds[] = {"hit", "first", "vote", "shown"};
  for (int i = 0; i < 4; i++)
    if (!strcmp(word, kinds[i]))
      return *word;
  return 0;
}

int main(int count, char **words) {
  char kind = count == 3 ? kind_of(words[1]) : 0, title[32];
  must(kind != 0, "counts hit|first|vote|shown N");
  uint64_t calls = strtoull(words[2], NULL, 10);
  must(kind != 'f' || calls <= AUTHORS, "there are 400 authors to be read first");
  void *store = peer_open(STORIES, AUTHORS, 1);
  must(store != NULL, "the store is refused");
  session = peer_session(store, 0);
  for (uint64_t i = 0; i < STORIES; i++) {
    int length = sprintf(title, "title-of-story-%07lu", (unsigned long)i);
    must(!peer_story(session, i, i % AUTHORS, title, length), "a story is refused");
  }
  for (uint64_t i = 0; i < STORIES; i++)
    vote(i);
  for (uint64_t i = 0; kind == 'f' && i < (VOTES_OF_FIRST - 1) * STORIES; i++)
    vote(below(STORIES));
  fence();
  for (uint64_t i = 0; i < AUTHORS; i++) {
    uint64_t other = below(i + 1);
    order[i] = order[other];
    order[other] = i;
  }
  for (uint64_t i = 0; kind != 'f' && i < AUTHORS; i++)
    read_author(i);
  if (kind != 'f')
    make(kind, WARM);
  usleep(20000); /* until the threads of the store rest */
  CALLGRIND_START_INSTRUMENTATION;
  make(kind, calls);
  CALLGRIND_STOP_INSTRUMENTATION;
  peer_close(store);
  return 0;
}
