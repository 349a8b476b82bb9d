/* A viewer's loop in miniature: reads a term from standard input, steps forward to the end of its walk and back to the
   start, and prints each state as the program winder does.

     cc host/walk.c target/staticlib/libyildreuz.a -o target/walk && printf '(\\x.x)(\\y.y)' | target/walk */
#include <stdio.h>
#include "yildreuz.h"

enum { MOST_STEPS = 10000, ROOM = 1024 };

/* What the viewer owns: everything. */
static uint8_t text[YILDREUZ_MOST_BYTES + 1]; /* one byte more than a text may have, so that a longer one shows */
static uint16_t table[5 * YILDREUZ_MOST_NODES];
static uint32_t log_words[ROOM], tape_words[ROOM], n;

static const char *const stop_names[] = {"spent", "answer", "jam", "far", "start", "log full", "tape full", "refused",
                                         "found", "none"};

static void print_list(char name, const uint32_t *words, uint32_t len)
{
    printf(" %c", name);
    while (len > 0)
        printf(" %lu", (unsigned long)words[--len]); /* the top is the last word in use */
}

static void print_state(yildreuz_session s)
{
    printf("%lu %lu %c", (unsigned long)s.position, (unsigned long)s.node, s.direction == YILDREUZ_UP ? 'u' : 'd');
    print_list('L', log_words, s.log_len);
    print_list('T', tape_words, s.tape_len);
    putchar('\n');
}

static void print_stop(uint32_t stop, uint32_t value)
{
    printf("%s", stop_names[stop]);
    if (stop == YILDREUZ_ANSWER || stop == YILDREUZ_REFUSED)
        printf(" %lu", (unsigned long)value);
    putchar('\n');
}

static yildreuz_session walk_forward(yildreuz_session s)
{
    for (uint32_t left = MOST_STEPS;; left--) {
        print_state(s);
        yildreuz_outcome out = yildreuz_forward(table, 5 * n, n, s, log_words, ROOM, tape_words, ROOM, left > 0 ? 1 : 0);
        if (out.stop != YILDREUZ_SPENT || left == 0) {
            print_stop(out.stop, out.value);
            return out.session;
        }
        s = out.session;
    }
}

static void walk_back(yildreuz_session s)
{
    for (;;) {
        yildreuz_outcome out = yildreuz_back(table, 5 * n, n, s, log_words, ROOM, tape_words, ROOM, 1);
        if (out.stop != YILDREUZ_SPENT) {
            print_stop(out.stop, out.value);
            return;
        }
        s = out.session;
        print_state(s);
    }
}

int main(void)
{
    size_t len = fread(text, 1, sizeof text, stdin);
    yildreuz_reading r = yildreuz_read(text, len, table, sizeof table / sizeof table[0]);
    n = r.n;
    yildreuz_opening o = yildreuz_open(table, 5 * n, n, log_words, ROOM, tape_words, ROOM);
    if (r.refusal != 0 || o.refusal != 0) {
        print_stop(YILDREUZ_REFUSED, r.refusal != 0 ? r.refusal : o.refusal);
        return 1;
    }
    walk_back(walk_forward(o.session));
    return 0;
}
