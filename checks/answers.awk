# Judges what a script over a table of notes, and perhaps others, printed where an allocation was refused.
# Takes the script, what it prints with ample memory, and what it printed. Up to the first refusal for
# want of memory each line is as there. Behind it, too, an index is one more than the last of its shard,
# an insert is accepted of a key that is not there and an update or a delete of one that is, and a read
# has the notes of its author that the entries which its cut names leave, by key; a try may miss.
FILENAME == ARGV[1] { if (!/^(#|$)/) calls[++count] = $0; next }
FILENAME == ARGV[2] { wanted[++wants] = $0; next }
{ printed[++lines] = $0 }

function fail() {
  print "not an answer to '" calls[call] "': " printed[at]
  failed = 1
  exit 1
}

# A write: its words are insert TABLE KEY CELL.., update TABLE KEY CELL.. or delete TABLE KEY. Of a note
# the first cell behind the key is the author.
function accept(  place, entry) {
  place = field[2]
  if (substr(place, 1, length(word[2]) + 1) != word[2] "." || field[3] != entries[place] + 0) fail()
  if ((word[1] == "insert") == ((word[2], word[3]) in keys)) fail()
  if (word[1] == "delete") delete keys[word[2], word[3]]
  else keys[word[2], word[3]]
  entry = place " " entries[place]++ + 0
  ids[entry] = word[3]
  authors[entry] = word[1] == "delete" ? "" : word[4]
  rows[entry] = substr(calls[call], length(word[1] " " word[2] " ") + 1)
}

function read_rows(  shards, cut, shard, number, left, last, id, least) {
  left = field[2]
  shards = split(field[4], cut, ",")
  split("", last)
  for (shard = 1; shard <= shards; shard++) {
    if (cut[shard] > entries["notes." shard - 1] + 0) fail()
    for (number = 0; number < cut[shard]; number++)
      last[ids["notes." shard - 1 " " number]] = "notes." shard - 1 " " number
  }
  for (id in last) if (authors[last[id]] != word[3]) delete last[id]
  for (; left > 0; left--) {
    least = ""
    for (id in last) if (least == "" || id + 0 < least + 0) least = id
    if (least == "" || printed[++at] != rows[last[least]]) fail()
    delete last[least]
  }
  for (id in last) fail()
}

# A key that is there is refused as Duplicate to an insert, and one that is not as Absent to others.
function refuse() {
  if ((line == "refused 4 Duplicate") != (word[1] == "insert")) fail()
  if ((word[1] == "insert") != ((word[2], word[3]) in keys)) fail()
}

END {
  if (failed) exit 1
  for (call = 1; call <= count && at < lines; call++) {
    split(calls[call], word, " ")
    want = wanted[++to]
    if (want ~ /^rows/) { split(want, field, " "); to += field[2] }
    line = printed[++at]
    split(line, field, " ")
    if (line ~ /^refused (1 NoMemory|10 Stopped)$/) { refused = 1; continue }
    if (line != want && !refused) fail()
    if (line ~ /^accepted/) accept()
    else if (line ~ /^rows/) read_rows()
    else if (line == "miss" && word[1] == "try" && refused) continue
    else if (line ~ /^refused (4 Duplicate|5 Absent)$/) refuse()
    else if (line != want) fail()
  }
  if (at < lines || (status == 0 && call <= count)) { call = count; fail() }
}
