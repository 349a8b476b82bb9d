/* How much stack each call touches on the deepest texts and tables there are, beside what yildreuz.h says; exit status 1 if
   a call touches more.

     cc -pthread host/stack.c target/staticlib/libyildreuz.a -o target/stack && target/stack */
#define _POSIX_C_SOURCE 200809L
#include <pthread.h>
#include <stdio.h>
#include <stdlib.h>
#include <string.h>
#include "yildreuz.h"

enum { STACK = 8 << 20, PAINT = 0xA5, TABLE = 5 * YILDREUZ_MOST_NODES };

static uint8_t text[YILDREUZ_MOST_BYTES], written[YILDREUZ_MOST_BYTES];
static size_t text_len;
static uint16_t table[TABLE];
static uint32_t log_words[YILDREUZ_LONGEST], tape_words[YILDREUZ_LONGEST], records[YILDREUZ_LONGEST_RECORDS], n;
static yildreuz_session session;

#define ALL_SLICES log_words, YILDREUZ_LONGEST, tape_words, YILDREUZ_LONGEST

static void *nothing(void *unused) { return unused; }
static void *reads(void *unused) { n = yildreuz_read(text, text_len, table, TABLE).n; return unused; }
static void *reads_numbers(void *unused) { n = yildreuz_read_numbers(text, text_len, table, TABLE).n; return unused; }
static void *writes(void *unused) { yildreuz_write(table, TABLE, n, written, sizeof written); return unused; }
static void *writes_numbers(void *unused) { yildreuz_write_numbers(table, TABLE, n, written, sizeof written); return unused; }
static void *to_numbers(void *unused) { yildreuz_to_numbers(text, text_len, written, sizeof written); return unused; }
static void *to_names(void *unused) { yildreuz_to_names(text, text_len, written, sizeof written); return unused; }
static void *opens(void *unused) { session = yildreuz_open(table, TABLE, n, ALL_SLICES).session; return unused; }
static void *forward(void *unused) { session = yildreuz_forward(table, TABLE, n, session, ALL_SLICES, 20000).session; return unused; }
static void *back(void *unused) { session = yildreuz_back(table, TABLE, n, session, ALL_SLICES, 10000).session; return unused; }
static void *looks(void *unused) { yildreuz_look(table, TABLE, n, session, ALL_SLICES, 20000); return unused; }
static void *goes(void *unused) { session = yildreuz_go(table, TABLE, n, session, ALL_SLICES, session.position, 20000).session; return unused; }
static void *tops(void *unused) { uint32_t refusal; yildreuz_top(table, TABLE, n, session, ALL_SLICES, YILDREUZ_TAPE, &refusal); return unused; }
static void *goes_to(void *unused) { session = yildreuz_go_to(table, TABLE, n, session, ALL_SLICES, 0).session; return unused; }
static void *forward_to(void *unused) { session = yildreuz_forward_to(table, TABLE, n, session, ALL_SLICES, 1, YILDREUZ_UP, 20000).session; return unused; }
static void *none_back(void *unused) { session = yildreuz_back_to(table, TABLE, n, session, ALL_SLICES, 1, YILDREUZ_UP).session; return unused; }
static void *back_to(void *unused) { session = yildreuz_back_to(table, TABLE, n, session, ALL_SLICES, 1, YILDREUZ_DOWN).session; return unused; }
static void *runs(void *unused) { yildreuz_run(table, TABLE, n, records, YILDREUZ_LONGEST_RECORDS, 20000); return unused; }

/* Bytes that a thread touches of a stack painted before. */
static size_t touched(void *(*call)(void *))
{
    static unsigned char *stack;
    pthread_attr_t attr;
    pthread_t thread;
    size_t clean = 0;
    if (stack == NULL && posix_memalign((void **)&stack, 1 << 16, STACK) != 0)
        exit(2);
    memset(stack, PAINT, STACK);
    if (pthread_attr_init(&attr) != 0 || pthread_attr_setstack(&attr, stack, STACK) != 0 || pthread_create(&thread, &attr, call, NULL) != 0)
        exit(2);
    pthread_join(thread, NULL);
    pthread_attr_destroy(&attr);
    while (clean < STACK && stack[clean] == PAINT)
        clean++;
    return STACK - clean;
}

static int failed;

/* What the call touches beyond a thread that does nothing. */
static void measure(const char *name, const char *on, void *(*call)(void *), size_t most)
{
    size_t used = touched(call) - touched(nothing);
    printf("%-13s %-36s %7lu of %lu bytes\n", name, on, (unsigned long)used, (unsigned long)most);
    failed |= used > most;
}

static void append(const char *part, size_t times)
{
    for (size_t len = strlen(part); times > 0; times--, text_len += len)
        memcpy(text + text_len, part, len);
}

/* first, head repeated, then middle, then tail repeated, as often as there is room. */
static void write_text(const char *first, const char *head, const char *middle, const char *tail)
{
    size_t times = (YILDREUZ_MOST_BYTES - strlen(first) - strlen(middle)) / (strlen(head) + strlen(tail));
    text_len = 0;
    append(first, 1);
    append(head, times);
    append(middle, 1);
    append(tail, times);
}

static void measure_reading(const char *on, const char *head, const char *middle, const char *tail)
{
    write_text("", head, middle, tail);
    measure("to_numbers", on, to_numbers, YILDREUZ_CONVERT_STACK);
    measure("read", on, reads, YILDREUZ_READ_STACK);
}

static void measure_numbers(const char *on, const char *first, const char *head, const char *middle, const char *tail)
{
    write_text(first, head, middle, tail);
    measure("to_names", on, to_names, YILDREUZ_CONVERT_STACK);
    measure("read_numbers", on, reads_numbers, YILDREUZ_READ_STACK);
}

static void measure_calls(const char *on)
{
    measure("write", on, writes, YILDREUZ_CALL_STACK);
    measure("write_numbers", on, writes_numbers, YILDREUZ_CALL_STACK);
    measure("open", on, opens, YILDREUZ_CALL_STACK);
    measure("look", on, looks, YILDREUZ_CALL_STACK);
    measure("forward", on, forward, YILDREUZ_CALL_STACK);
    measure("back", on, back, YILDREUZ_CALL_STACK);
    measure("go", on, goes, YILDREUZ_CALL_STACK);
    measure("top", on, tops, YILDREUZ_CALL_STACK);
    measure("go_to", on, goes_to, YILDREUZ_CALL_STACK);
    measure("forward_to", on, forward_to, YILDREUZ_CALL_STACK);
    measure("back_to, none", on, none_back, YILDREUZ_CALL_STACK);
    measure("back_to", on, back_to, YILDREUZ_CALL_STACK);
    measure("run", on, runs, YILDREUZ_CALL_STACK);
}

/* 2,999 abstractions over a variable: deeper than any text. */
static void deepest_table(void)
{
    n = YILDREUZ_MOST_NODES;
    uint16_t *kind = table, *left = table + n, *right = table + 2 * n, *parent = table + 3 * n, *level = table + 4 * n;
    for (uint32_t i = 1; i <= n; i++) {
        kind[i - 1] = i < n ? 2 : 1;
        left[i - 1] = i < n ? i + 1 : 1;
        right[i - 1] = level[i - 1] = 0;
        parent[i - 1] = i - 1;
    }
}

int main(void)
{
    measure_reading("opening brackets", "(", "", "");
    measure_reading("brackets around abstractions", "(\\x.", "x", ")");
    measure_reading("abstractions", "\\x.", "x", "");
    measure_calls("abstractions");
    measure_reading("arguments in arguments", "(\\x.x x)(", "\\x.x", ")");
    measure_calls("arguments in arguments");
    measure_reading("functions of functions", "(\\x.x)", "(\\x.x)", "");
    measure_calls("functions of functions");
    measure_numbers("backslashes alone", "", "\\ ", "", "");
    measure_numbers("@ alone", "", "@ ", "", "");
    measure_numbers("abstractions, as numbers", "", "\\ ", "0", "");
    measure_calls("abstractions, as numbers");
    measure_numbers("arguments in arguments, as numbers", "\\ ", "@ 0 ", "0", "");
    measure_calls("arguments in arguments, as numbers");
    measure_numbers("functions of functions, as numbers", "\\ ", "@ ", "0", " 0");
    measure_calls("functions of functions, as numbers");
    deepest_table();
    measure_calls("2,999 abstractions");
    return failed;
}
