/* setjmp and longjmp: in a loop, out of depths, through calls by pointers, through callers of callers, one in another,
   thrown on, a thousand times on one stack, with sums of floats beside. */
#include "guest.h"
#include <setjmp.h>
#include <stdio.h>
#include <stdlib.h>
#include <string.h>

static jmp_buf outer, inner;
static double kept;
static int came_back;                                  /* from calls by a pointer */

static int deep(int n, jmp_buf *to)
{
    char frame[64];
    memset(frame, n, sizeof frame);
    if (n == 0)
        longjmp(*to, 7);
    return deep(n - 1, to) + frame[n % 64];
}
static double add(double a) { return kept += a / 3; }
static double leave(double a) { kept -= a; longjmp(inner, (int)a); }
static double (*volatile table[])(double) = {add, leave, add};

static int both(int n)
{
    volatile int count = 0;
    int code = setjmp(inner);
    if (code) {
        count += code;
        if (count > n)
            longjmp(outer, count);                     /* thrown on */
    }
    for (int i = 0; i < 5; i++)
        table[(count + i) % 3](1 + count % 4 + i);
    return count;
}
static int compare(const void *a, const void *b)
{
    int x = *(const int *)a, y = *(const int *)b;
    if (x == 13 || y == 13)
        longjmp(outer, 1000);
    return x - y;
}

/* Callers before what they call, so that who may be left is not found in one look at the functions. */
__attribute__((noinline)) static int second(int n);
__attribute__((noinline)) static int third(int n);
__attribute__((noinline)) static int first(int n)
{
    int got = second(n);
    printf("first goes on with %d\n", got);
    return got;
}
static int second(int n)
{
    int got = third(n) + 1;
    printf("second goes on with %d\n", got);
    return got;
}
static int third(int n)
{
    if (n % 3 == 0)
        longjmp(outer, n + 1);
    return n;
}

__attribute__((noinline)) static void by_pointer(int n)
{
    double got = table[n % 3](n);
    came_back++;
    printf("by a pointer %.17g\n", got);
}

/* More frames than the stack has room for, if those that were left stayed on it. */
static int often(void)
{
    volatile int count = 0;
    for (volatile int i = 0; i < 1000; i++)
        if (setjmp(inner))
            count++;
        else
            deep(15, &inner);
    return count;
}

static void one(int turn)
{
    static int numbers[50];
    switch (turn % 6) {
    case 0: deep(turn + 1, &outer); break;
    case 1: printf("both %d\n", both(turn)); break;
    case 2:
        for (int i = 0; i < 50; i++)
            numbers[i] = (i * 7919 + turn) % (turn > 9 ? 97 : 12);
        qsort(numbers, 50, sizeof *numbers, compare);
        printf("sorted %d %d\n", numbers[0], numbers[49]);
        break;
    case 3: printf("code %d\n", setjmp(inner) ? 1 : deep(3, &inner)); break;
    case 4: first(turn / 6); break;
    case 5:
        if (!setjmp(inner))
            by_pointer(turn / 6);
        break;
    }
}

GUEST(operation)
{
    volatile int turn = 0;
    kept = 0.1;
    for (turn = 0; turn < 30; turn++) {
        int code = setjmp(outer);
        if (code)
            printf("turn %d code %d kept %.17g\n", turn, code, kept);
        else
            one(turn);
    }
    printf("often %d, came back %d\n", often(), came_back);
    return guest_end(operation);
}
