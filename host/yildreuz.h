/* Yildreuz for C and C++: reads a closed lambda-term and writes it back as text, with names or with numbers for its
   variables, converts a text of either kind into the other, opens a session on a term, moves a token over it, forward,
   back, to a position or to the last or next visit of a node, tells what a walk forward would come to before it is made,
   points at the newest entry that the token carries, and runs Krivine's machine on a term. Link libyildreuz.a (x86-64
   Linux), which needs memset of the C library and nothing else.

   Who owns what. Every byte and word is the caller's. A call borrows texts, table, log, tape and records while it runs: it
   keeps no pointer, allocates nothing, and has no state of its own, so calls that write different slices may run at the
   same time, on one table too. Sessions and answers are numbers, handed over and back by value; a copy of one is as good as
   the other.

   What a call takes. Any bytes, words and numbers there are: each call ends on all of them, and refuses by number what
   is not right. What no call can test is the caller's promise:
   - pointer and length agree: behind the pointer lie at least as many bytes or words as the length after it says, to be
     read, and to be written where the pointer is not to const;
   - every pointer is aligned for its type, and none is NULL, even where its length is 0;
   - a slice or word that a call writes overlaps nothing else that the call is lent.

   What a refusal leaves. No lent byte or word differs but the one through which top tells the number, and a call that takes
   a session and answers one gives back the one it took, number for number. Every other number of the answer is 0, but for
   the refusal's own and, in the answers of the calls that wind and of look, the stop YILDREUZ_REFUSED, in that of run the
   halt YILDREUZ_RUN_REFUSED:
     1  the text has more than 3,000 bytes            6  the table has fewer than 5 words for each node of the term
     2  it has a byte that no term has                7  n is 0 or over 3,000, the table has fewer than 5 x n words,
     3  it has a name over 8 bytes, or one that          or no closed term has it
        starts with a digit                           8  log or tape has more than 16,384 words
     4  it is not a term                              9  the session, log and tape hold no state of the machine, or
     5  it has a name without a binder                   the session's direction is neither 0 nor 1, or its turns
    13  it is no text of the number dialect              are greater than its position
    14  it has a number that reaches past the        10  the chosen list is empty, or none is chosen
        outermost binder                             11  the text to be written has more than 3,000 bytes, or more
                                                         than are lent
                                                     12  the node to be visited is 0 or over n, or the direction of
                                                         the visit is neither 0 nor 1
                                                     15  the session's position is not the one that go is handed
                                                     16  the slice of records is over 16,383 words
   A table's words have 16 bits, and 6 and 7 count these; those of log, tape and records have 32.
   Each call tests its numbers in this order: read 1 to 6; read_numbers 1, 13, 14, 6; write and write_numbers 7, 11;
   to_numbers 1 to 5, 11; to_names 1, 13, 14, 11; open 7, 8; forward, back and go_to 7 to 9; back_to and forward_to 7 to 9,
   12; look 7 to 9; go 7 to 9, 15; top 7 to 10; run 7, 16.

   What lies in the slices. A table is five columns of n words, one behind the other: the nodes' kinds, lefts, rights,
   parents and levels. Field f of node i, f from 0 to 4 and i from 1 to n, is table[f * n + i - 1], so that a pointer to its
   first word is all that a column needs:

     const uint16_t *kind = table, *left = table + n, *right = table + 2 * n;
     const uint16_t *parent = table + 3 * n, *level = table + 4 * n;

   and node i has kind[i - 1] (1 a variable, 2 an abstraction, 3 an application), left[i - 1] (of a variable the binder, of
   an abstraction the body, of an application the function), right[i - 1] (of an application the argument, else 0),
   parent[i - 1] (0 at the root, which is node 1) and level[i - 1] (in how many arguments it stands). The columns are as long
   as the n that a call is handed says; words of the slice behind the fifth are neither read nor written.
   Log and tape grow from the first word of their slices up. An entry is the entries inside it and, last, its variable's
   node: level(v) - level(left(v)) entries are inside that of the variable v. A bullet, on the tape alone, is the word 0. The
   words above both lists are 0.
   A closure of Krivine's machine is a record of three words: node, environment, next. Record r, from 1, is words 3r - 2 to
   3r of the slice, which in C are records[3 * r - 3] to records[3 * r - 1]. Environment is the record on top of the
   closure's environment, and next the record below this one: on the stack at first, and in an environment once an
   abstraction moved it there, which writes next anew. 0 is no record, and ends each of these chains.

   Two dialects of text. The one with names is that of read and write. The number dialect has \ before a body, @ before
   function and argument, and for a variable a decimal number without leading zeros: how many abstractions stand between
   it and its binder, so that 0 is for the innermost. One space stands before each of these parts but the first, and there
   is nothing else, no line feed at the end either: (\x.x x)(\y.y) is @ \ @ 0 0 \ 0.

   What holds after every list of calls. Open a session on a table that was read, and hand each call of forward, back,
   go_to, back_to, forward_to, look and go the session, log and tape that the one before left: then these are, word for
   word, those of the machine after as many steps as the position says, however the calls were mixed, the turns are how many
   of these steps changed direction, and each call that winds carried what the machine's steps between its two positions
   carry. A look leaves the session and adds no step: what it tells, with the words carried, is what the machine comes to
   from there. This is proved, as is every answer of every call.

   How long a call takes. Each call ends; it first looks over the whole table and both slices, and then makes its steps,
   which may be billions where the count, or the way to the position, is that long. A viewer that must stay awake winds
   in pieces, and one that winds far does so by large counts rather than by many small ones. back_to has no count: it may
   wind back to position 0, and forward again where there is no visit, however great the position is. A look makes the steps
   that it tells of, and as many back. A run looks over the table alone; a variable's step may
   look at as many nodes and records as there are. However great its count, a run comes to answer or full in the end, since
   each application takes a record and none is given back; this is argued, and not proved.

   Stack. A call needs no more than the constants below say: measured on the deepest texts and tables that there are, and
   rounded up. */
#ifndef YILDREUZ_H
#define YILDREUZ_H

#include <stddef.h>
#include <stdint.h>

#ifdef __cplusplus
extern "C" {
#endif

enum {
    YILDREUZ_MOST_BYTES = 3000,          /* of a text, read or written */
    YILDREUZ_MOST_NODES = 3000,          /* of a term; its table has 5 words, of 16 bits, for each node */
    YILDREUZ_LONGEST = 16384,            /* words of a log or a tape slice; 0 is permitted */
    YILDREUZ_LONGEST_RECORDS = 16383,    /* words of a slice of records, 3 for each; 0 is permitted */
    YILDREUZ_READ_STACK = 768 * 1024,    /* bytes of stack that yildreuz_read or yildreuz_read_numbers needs at most */
    YILDREUZ_CONVERT_STACK = 896 * 1024, /* bytes of stack that yildreuz_to_numbers or yildreuz_to_names needs at most */
    YILDREUZ_CALL_STACK = 576 * 1024     /* bytes of stack that each of the other calls needs at most */
};

/* Which way the token goes. */
enum { YILDREUZ_DOWN = 0, YILDREUZ_UP = 1 };

/* The lists that the token carries. */
enum { YILDREUZ_LOG = 0, YILDREUZ_TAPE = 1 };

/* Why forward, back, go_to, back_to, forward_to or go ended, or why the walk that look tells of would end. */
enum {
    YILDREUZ_SPENT = 0,     /* every step asked for was made */
    YILDREUZ_ANSWER = 1,    /* down at an abstraction with an empty tape; value is its node */
    YILDREUZ_JAM = 2,       /* no rule fits the state, or a step back would leave turns below 0 or above its position */
    YILDREUZ_FAR = 3,       /* the position is at its greatest, 4,294,967,295 */
    YILDREUZ_START = 4,     /* going back, at position 0 */
    YILDREUZ_LOG_FULL = 5,  /* the log slice has no room for the next step */
    YILDREUZ_TAPE_FULL = 6, /* the tape slice has none */
    YILDREUZ_REFUSED = 7,   /* nothing was done; value is the refusal's number */
    YILDREUZ_FOUND = 8,     /* back_to or forward_to came to a visit of the node in the direction */
    YILDREUZ_NONE = 9       /* back_to came to none; session, log and tape are as they were given */
};

/* Why run ended. Spent, answer and full are tested before each step, in this order. */
enum {
    YILDREUZ_RUN_SPENT = 0,  /* every step asked for was made */
    YILDREUZ_RUN_ANSWER = 1, /* at an abstraction with an empty stack */
    YILDREUZ_RUN_FULL = 2,   /* at an application, with as many records taken as fit */
    YILDREUZ_RUN_REFUSED = 3 /* nothing was done; value is the refusal's number */
};

/* What read and read_numbers answer. */
typedef struct yildreuz_reading {
    uint32_t n;       /* the term's nodes, which the other calls take with the table; 0 in a refusal */
    uint32_t refusal; /* its number, 1 to 6, 13 or 14, or 0 for none */
} yildreuz_reading;

/* What the calls that write a text answer: write, write_numbers, to_numbers and to_names. */
typedef struct yildreuz_written {
    uint32_t len;     /* the bytes of the text, from the first lent on; 0 in a refusal */
    uint32_t refusal; /* its number, 1 to 5, 7, 11, 13 or 14, or 0 for none */
} yildreuz_written;

/* Where the token stands. The caller keeps it, with the table, the log and the tape it belongs to, from call to call. */
typedef struct yildreuz_session {
    uint32_t node;      /* numbered from 1 in the order of the text: a node, its left part, its right part */
    uint32_t direction; /* YILDREUZ_DOWN or YILDREUZ_UP */
    uint32_t position;  /* steps from the start */
    uint32_t log_len;   /* words of the log in use, from the slice's first on; its top is the last of them */
    uint32_t tape_len;  /* the same of the tape */
    uint32_t turns;     /* how many of the steps from the start to the position changed direction, so that a viewer can show
                           how often the token turned round: a step forward that changes direction adds one, and a step
                           back takes it off again. They are at most the position; of a session from open they are even
                           where the token goes down, and odd where it goes up */
} yildreuz_session;

/* What open answers. */
typedef struct yildreuz_opening {
    yildreuz_session session; /* the token at the start; every number 0 in a refusal */
    uint32_t refusal;         /* its number, 7 or 8, or 0 for none */
} yildreuz_opening;

/* What forward, back, go_to, back_to, forward_to and go answer. */
typedef struct yildreuz_outcome {
    yildreuz_session session; /* where the token stands now; the one given in a refusal and with YILDREUZ_NONE */
    uint32_t steps;           /* steps made; 0 in a refusal and with YILDREUZ_NONE */
    uint32_t stop;            /* why it ended: YILDREUZ_SPENT to YILDREUZ_NONE */
    uint32_t value;           /* the answer's node or the refusal's number; 0 with every other stop */
    uint32_t value2;          /* 0: no stop has a second value */
    uint32_t peak;            /* the greatest weight over the states stood in, first and last included: 1 for each
                                 bullet, and for each logged position, nested ones included, as many as n has binary
                                 digits; at most 393,216, and 0 in a refusal. With YILDREUZ_NONE it is the weight of
                                 the state given alone. A session weighs so on its own slices: each word 0 among the
                                 tape's counts 1, each other word of the two lists the digits */
    uint64_t carried;         /* how many words the steps moved between log and tape: of an entry that goes over from one
                                 list to the other all its words; of one that is made at its variable, or taken apart at
                                 its binder, those of the entries inside it and not the variable's own; of a bullet none.
                                 At most 16,384 for each step made, and 0 in a refusal and with YILDREUZ_NONE. A step
                                 back carries what the step that it undoes carried: forward, and then back by the steps
                                 made, carry the same */
} yildreuz_outcome;

/* What look answers: the six numbers that forward by the count would answer beside the session, and what go is handed. */
typedef struct yildreuz_foretold {
    uint32_t steps;    /* steps that forward would make; 0 in a refusal */
    uint32_t stop;     /* why it would end: YILDREUZ_SPENT to YILDREUZ_TAPE_FULL but YILDREUZ_START; or YILDREUZ_REFUSED */
    uint32_t value;    /* the answer's node or the refusal's number; 0 with every other stop */
    uint32_t value2;   /* 0: no stop has a second value */
    uint32_t peak;     /* as in an outcome, over the states that forward would stand in; 0 in a refusal */
    uint64_t carried;  /* as in an outcome, over the steps that forward would make; 0 in a refusal */
    uint32_t position; /* the position and the count that it looked from; both 0 in a refusal */
    uint32_t count;
} yildreuz_foretold;

/* What top answers: where the part lies in the slice that the caller lent for the chosen list. */
typedef struct yildreuz_part {
    uint32_t offset; /* the index of its first word; 0 in a refusal */
    uint32_t len;    /* how many words it has, at least 1; 0 in a refusal */
} yildreuz_part;

/* What run answers. */
typedef struct yildreuz_ran {
    uint32_t node;  /* where the run stands, whatever the halt; 0 in a refusal */
    uint32_t steps; /* steps made; 0 in a refusal */
    uint32_t halt;  /* why it ended: YILDREUZ_RUN_SPENT to YILDREUZ_RUN_REFUSED */
    uint32_t value; /* the refusal's number, 7 or 16; 0 with every other halt */
} yildreuz_ran;

/* Reads a closed term.
   Borrows the text to read it, and the table to write its first 5 x n words; the words after them stay.
   Refuses with 1 to 6, and then every word of the table stays.
   Needs YILDREUZ_READ_STACK bytes of stack.
   The caller promises: the table does not overlap the text; and what the top of this file says of pointers. */
yildreuz_reading yildreuz_read(const uint8_t *text, size_t text_len, uint16_t *table, size_t table_len);

/* Reads a closed term in the number dialect: its table is the one that yildreuz_read gives for the same term with names. A
   number of any length is the number it is, so that one too large for a word is a 14.
   Borrows, needs and leaves to the caller what yildreuz_read does.
   Refuses with 1, 13, 14 or 6, each put to the whole text before the next, and then every word of the table stays. */
yildreuz_reading yildreuz_read_numbers(const uint8_t *text, size_t text_len, uint16_t *table, size_t table_len);

/* Writes the text of the term whose table it is. A binder is named v and its node's number, one space stands between
   atoms, round brackets stand only where the grammar needs them, and neither a 0 nor a line feed ends it: (\x.x x)(\y.y)
   is written (\v2.v2 v2) (\v6.v6). Reading that, into 5 x n words or more, gives the same table.
   Borrows the table to read it, and text to write its first len bytes; the bytes after them stay.
   Refuses with 7 or 11, and then every byte of text stays. There is no use in lending more than YILDREUZ_MOST_BYTES.
   Needs YILDREUZ_CALL_STACK bytes of stack.
   The caller promises: text does not overlap the table; and what the top of this file says of pointers. */
yildreuz_written yildreuz_write(const uint16_t *table, size_t table_len, uint32_t n, uint8_t *text, size_t text_len);

/* Writes the text of the term whose table it is in the number dialect; neither a 0 nor a line feed ends it. Reading that
   with yildreuz_read_numbers, into 5 x n words or more, gives the same table, and a table that was read from such a text
   is written as that text, byte for byte.
   Borrows, refuses, needs and leaves to the caller what yildreuz_write does. */
yildreuz_written yildreuz_write_numbers(const uint16_t *table, size_t table_len, uint32_t n,
                                        uint8_t *text, size_t text_len);

/* Converts a text with names into the number dialect: reads it as yildreuz_read does, into a table of the call's own, and
   writes that as yildreuz_write_numbers does. What is written reads to the table of the text given.
   Borrows text to read it, and out to write its first len bytes; the bytes after them stay.
   Refuses with 1 to 5 for the text given, and then with 11 for the one to be written: every byte of out stays. There is no
   use in lending more than YILDREUZ_MOST_BYTES.
   Needs YILDREUZ_CONVERT_STACK bytes of stack.
   The caller promises: out does not overlap text; and what the top of this file says of pointers. */
yildreuz_written yildreuz_to_numbers(const uint8_t *text, size_t text_len, uint8_t *out, size_t out_len);

/* Converts a text of the number dialect into one with names: reads it as yildreuz_read_numbers does, into a table of the
   call's own, and writes that as yildreuz_write does. What is written reads to the table of the text given. Names may take
   more bytes than numbers do, so that what yildreuz_to_numbers wrote may be refused here with 11.
   Refuses with 1, 13 or 14 for the text given, and then with 11 for the one to be written: every byte of out stays.
   Borrows, needs and leaves to the caller what yildreuz_to_numbers does. */
yildreuz_written yildreuz_to_names(const uint8_t *text, size_t text_len, uint8_t *out, size_t out_len);

/* Opens a session at the start of the walk.
   Borrows the table to read it, and log and tape to write 0 into every word.
   Refuses with 7 or 8, and then every word of log and tape stays.
   Needs YILDREUZ_CALL_STACK bytes of stack.
   The caller promises: log and tape overlap neither each other nor the table; and what the top says of pointers. */
yildreuz_opening yildreuz_open(const uint16_t *table, size_t table_len, uint32_t n,
                               uint32_t *log, size_t log_len, uint32_t *tape, size_t tape_len);

/* Makes count steps forward, or fewer if another stop comes first.
   Borrows the table to read it, and log and tape, as the call before left them, to read and write.
   Refuses with 7 to 9, and then every word of log and tape stays, and the session comes back as given.
   Needs YILDREUZ_CALL_STACK bytes of stack.
   The caller promises: log and tape overlap neither each other nor the table; and what the top says of pointers. */
yildreuz_outcome yildreuz_forward(const uint16_t *table, size_t table_len, uint32_t n, yildreuz_session session,
                                  uint32_t *log, size_t log_len, uint32_t *tape, size_t tape_len, uint32_t count);

/* Makes count steps back, or fewer if another stop comes first. After forward, back by the steps made gives the session,
   its turns included, and every word of both slices as they were. On a session that comes from no such list of calls as the
   top of this file speaks of, the turns may be too few or too many for the way back: a step that would leave them below 0,
   or above the new position, is a jam, and comes before a full slice.
   Borrows, refuses, needs and leaves to the caller what yildreuz_forward does. */
yildreuz_outcome yildreuz_back(const uint16_t *table, size_t table_len, uint32_t n, yildreuz_session session,
                               uint32_t *log, size_t log_len, uint32_t *tape, size_t tape_len, uint32_t count);

/* Goes to a position: forward or back by the difference.
   Borrows, refuses, needs and leaves to the caller what yildreuz_forward does. */
yildreuz_outcome yildreuz_go_to(const uint16_t *table, size_t table_len, uint32_t n, yildreuz_session session,
                                uint32_t *log, size_t log_len, uint32_t *tape, size_t tape_len, uint32_t position);

/* Goes back to the last earlier position at which the token stood on the node in the direction, and ends there as
   YILDREUZ_FOUND. The present position is not an earlier one. Where no position from 0 to the present less one is such,
   it ends as YILDREUZ_NONE, and gives back the session and every word of log and tape as they were. On a session that
   comes from no such list of calls as the top of this file speaks of, a jam or a full slice on the way back means none
   too, and the positions are the session's own. It has no other stop but YILDREUZ_REFUSED.
   Borrows, needs and leaves to the caller what yildreuz_forward does, and refuses as it does, with 7 to 9 or 12, of which
   12 is also for a direction other than 0 and 1. */
yildreuz_outcome yildreuz_back_to(const uint16_t *table, size_t table_len, uint32_t n, yildreuz_session session,
                                  uint32_t *log, size_t log_len, uint32_t *tape, size_t tape_len,
                                  uint32_t node, uint32_t direction);

/* Goes forward to the next later position at which the token stands on the node in the direction, and ends there as
   YILDREUZ_FOUND, before any other stop that there is at that state; the present position is not a later one. Where
   forward by count reaches no such position, it ends where that ends, with its stop.
   Borrows, needs and leaves to the caller what yildreuz_forward does, and refuses as it does, with 7 to 9 or 12, of which
   12 is also for a direction other than 0 and 1. */
yildreuz_outcome yildreuz_forward_to(const uint16_t *table, size_t table_len, uint32_t n, yildreuz_session session,
                                     uint32_t *log, size_t log_len, uint32_t *tape, size_t tape_len,
                                     uint32_t node, uint32_t direction, uint32_t count);

/* Tells what yildreuz_forward by count would answer, before the steps are made: whether the log is long enough, where the
   walk would stop, and what it would carry. The session stays the caller's, at the position where it is, and every word of
   log and tape is again what it was: the call winds forward and back again in them.
   Borrows, needs and leaves to the caller what yildreuz_forward does.
   Refuses with 7 to 9, and then every word of log and tape stays. */
yildreuz_foretold yildreuz_look(const uint16_t *table, size_t table_len, uint32_t n, yildreuz_session session,
                                uint32_t *log, size_t log_len, uint32_t *tape, size_t tape_len, uint32_t count);

/* Goes by the position and the count that a look handed out: forward by count, from a session at that position. Where
   table, session, log and tape are those of the look, steps, stop, value, peak and carried are those that it told.
   Borrows, needs and leaves to the caller what yildreuz_forward does, and refuses as it does, with 7 to 9, or with 15 where
   the session is at another position; only the position is compared. */
yildreuz_outcome yildreuz_go(const uint16_t *table, size_t table_len, uint32_t n, yildreuz_session session,
                             uint32_t *log, size_t log_len, uint32_t *tape, size_t tape_len,
                             uint32_t position, uint32_t count);

/* Points at the newest entry of the log (which is YILDREUZ_LOG) or of the tape (YILDREUZ_TAPE): the words log[offset] to
   log[offset + len - 1], or those of tape, are that entry, its variable last and the entries inside it below. A bullet on
   top of the tape is its one word, 0. Nothing is copied: the words stand where they stood, until the next call that winds
   or opens.
   Borrows table, log and tape to read them, and *refusal to write the number, 0 for none, in every call.
   Refuses with 7 to 10. A number other than 0 and 1 chooses no list.
   Needs YILDREUZ_CALL_STACK bytes of stack.
   The caller promises: refusal points at a word in none of the three slices; and what the top says of pointers. */
yildreuz_part yildreuz_top(const uint16_t *table, size_t table_len, uint32_t n, yildreuz_session session,
                           const uint32_t *log, size_t log_len, const uint32_t *tape, size_t tape_len, uint32_t which,
                           uint32_t *refusal);

/* Runs Krivine's machine from the start for count steps, or fewer if another halt comes first. At first it stands at node
   1, and environment and stack, two lists of closures, are empty. An application puts a closure of its argument and the
   environment on the stack and goes to its function; an abstraction moves the stack's top closure onto the environment and
   goes to its body, and with the stack empty it is the answer; a variable takes node and environment of the closure that is
   i below the environment's top, i being the abstractions between it and its binder. Each application step takes one new
   record, from record 1 on, and none is given back; as many fit as the slice has whole threes of words.
   Borrows the table to read it, and records to write those that it takes: no word is read before it is written and none is
   cleared, so that whatever lies there may stay, and the words past the taken records keep their values.
   Refuses with 7, or after it with 16 where more than YILDREUZ_LONGEST_RECORDS words are lent, and then every word stays.
   Needs YILDREUZ_CALL_STACK bytes of stack.
   The caller promises: records does not overlap the table; and what the top of this file says of pointers. */
yildreuz_ran yildreuz_run(const uint16_t *table, size_t table_len, uint32_t n, uint32_t *records, size_t records_len,
                          uint32_t count);

#ifdef __cplusplus
}
#endif
#endif
