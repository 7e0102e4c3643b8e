/* The store as a library: what a harness in C, or one that loads a library, calls.
 *
 * A session's thread of the store makes the calls of that session on its own stack, but in the thread of
 * the harness: at `caller_next` it lies down, and who calls a function below goes on upon its stack until
 * the next `caller_next`. So a call costs two changes of the stack and no change of the thread.
 *
 * One store is open at a time. x86-64. */
#include <pthread.h>
#include <semaphore.h>
#include <setjmp.h>
#include <stdint.h>
#include <stdlib.h>
#include <string.h>
#include <sys/mman.h>

enum { STORY = 1, VOTE, READ, FENCE, MOST_SESSIONS = 16, COUCH = 65536 };

struct call {
  uint64_t kind, id, of;
  int64_t weight;
  uint64_t length;
};

typedef void (*peer_row)(void *sink, uint64_t story, uint64_t author, const char *title, uint64_t length,
                         uint64_t votes);

struct session {
  /* in cache lines of its own, since each call writes here, and sessions have threads of their own */
  _Alignas(128) void *inside, *outside; /* where the stack of the session, and that of who called, was left */
  struct call *call; /* where the store takes the next call from */
  int64_t came_to;
  const char *title;
  void *sink;
  peer_row row;
  char *couch; /* the stack on which the session's thread sleeps, in no memory of the allocator's */
  sem_t end;
  int has_ended;
};

static struct session sessions[MOST_SESSIONS];
static uint64_t count; /* of sessions; 0 where no store is open */
static sem_t ready;
static int is_serving;
static pthread_t thread;
static jmp_buf end;
static __thread struct session *own;

int main(int, char **);

/* Leaves a stack, notes where, and goes on upon another: by a jump, since a processor foretells where a return
 * leads by the calls before it, which were made upon the stack that is left. */
__attribute__((naked, noinline)) static void turn(void **left, void *to) {
  __asm__("pushq %rbp\n pushq %rbx\n pushq %r12\n pushq %r13\n pushq %r14\n pushq %r15\n"
          "movq %rsp, (%rdi)\n movq %rsi, %rsp\n"
          "popq %r15\n popq %r14\n popq %r13\n popq %r12\n popq %rbx\n popq %rbp\n popq %rax\n jmp *%rax");
}

static void sleep_to_the_end(void) {
  void *left;
  sem_post(&ready);
  while (sem_wait(&own->end))
    ;
  turn(&left, own->inside);
}

/* What the store calls. */

uint64_t caller_sessions(void) { return count; }

_Bool caller_next(uint64_t number, int64_t came_to, struct call *call) {
  struct session *session = &sessions[number];
  session->came_to = came_to;
  session->call = call;
  if (!session->couch) {
    own = session;
    session->couch = mmap(NULL, COUCH, PROT_READ | PROT_WRITE, MAP_PRIVATE | MAP_ANONYMOUS, -1, 0);
    if (session->couch == MAP_FAILED)
      abort();
    void **top = (void **)(session->couch + COUCH - 72); /* as behind a call */
    memset(top - 7, 0, 7 * sizeof *top);
    top[-1] = (void *)sleep_to_the_end;
    turn(&session->inside, top - 7);
  } else {
    turn(&session->inside, session->outside);
  }
  return !session->has_ended;
}

void caller_title(uint64_t number, char *into, uint64_t length) {
  struct session *session = &sessions[number];
  memcpy(into, session->title, length < session->call->length ? length : session->call->length);
}

void caller_row(uint64_t number, uint64_t story, uint64_t author, const char *title, uint64_t length,
                uint64_t votes) {
  struct session *session = &sessions[number];
  session->row(session->sink, story, author, title, length, votes);
}

/* What the harness calls. */

/* The store's `main` ends the process; linked with --wrap=_exit, it ends here. */
void __wrap__exit(int status) { longjmp(end, status + 1); }

static void *serve(void *arguments) {
  char *words[] = {"peer", NULL};
  (void)arguments;
  if (!setjmp(end))
    main(1, words);
  is_serving = 0;
  for (uint64_t i = 0; i < MOST_SESSIONS; i++)
    sem_post(&ready);
  return NULL;
}

static int64_t made(struct session *session, struct call call) {
  *session->call = call;
  turn(&session->outside, session->inside);
  return session->came_to;
}

void *peer_open(uint64_t stories, uint64_t authors, uint64_t wanted) {
  (void)stories, (void)authors;
  if (count || !wanted || wanted > MOST_SESSIONS)
    return NULL;
  memset(sessions, 0, sizeof sessions);
  count = wanted;
  sem_init(&ready, 0, 0);
  for (uint64_t i = 0; i < count; i++)
    sem_init(&sessions[i].end, 0, 0);
  is_serving = 1;
  if (pthread_create(&thread, NULL, serve, NULL)) {
    count = 0;
    return NULL;
  }
  for (uint64_t i = 0; i < count; i++)
    while (sem_wait(&ready))
      ;
  if (is_serving)
    return &count;
  pthread_join(thread, NULL);
  count = 0;
  return NULL;
}

void *peer_session(void *store, uint64_t number) { return store && number < count ? &sessions[number] : NULL; }

int peer_story(void *at, uint64_t id, uint64_t author, const char *title, uint64_t length) {
  struct session *session = at;
  session->title = title;
  return made(session, (struct call){STORY, id, author, 0, length}) < 0;
}

int peer_vote(void *at, uint64_t id, uint64_t story, int64_t weight) {
  return made(at, (struct call){VOTE, id, story, weight, 0}) < 0;
}

int64_t peer_read(void *at, uint64_t author, void *sink, peer_row row) {
  struct session *session = at;
  session->sink = sink;
  session->row = row;
  return made(session, (struct call){READ, 0, author, 0, 0});
}

int peer_fence(void *at) { return made(at, (struct call){FENCE, 0, 0, 0, 0}) < 0; }

void peer_session_close(void *at) { (void)at; }

void peer_close(void *store) {
  (void)store;
  for (uint64_t i = 0; i < count; i++) {
    sessions[i].has_ended = 1;
    sem_post(&sessions[i].end);
  }
  pthread_join(thread, NULL);
  for (uint64_t i = 0; i < count; i++)
    if (sessions[i].couch)
      munmap(sessions[i].couch, COUCH);
  count = 0;
}
