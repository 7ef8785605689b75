/*
 * A single take and a single give-back store a summary word only where one of its bits turns. Here the machine holds them to it: the top
 * word of a map of 4,096 positions is the last of a page that can't be written, and its other words are on the next page, which can.
 * Calls that turn no bit of the top word must not fault, and must do what they do on a twin in plain memory. Calls that turn one must
 * fault, which shows that the page is a guard at all. They run in child processes, since a fault ends the process.
 * Prints each call that is not as it should be, and last `N passed, M failed`.
 */
#define _DEFAULT_SOURCE /* for MAP_ANONYMOUS */
#include <asogeren.h>
#include <signal.h>
#include <stdio.h>
#include <stdlib.h>
#include <string.h>
#include <sys/mman.h>
#include <sys/resource.h>
#include <sys/wait.h>
#include <unistd.h>

enum { CHILDREN = 16, LEAVES = 16, CHILD = 256, LEAF = 16, CHILD_WORDS = 17 };
#define CAP ASOGEREN_BITALLOC4K_CAP
#define WORDS ASOGEREN_BITALLOC4K_WORDS

/* The call that runs: a take, or the position that is given back. */
#define TAKE (-1L)

/* What the child processes and this one share: the counts, and the last call that was begun. */
static struct shared { unsigned long passed, failed; long call; } *shared;

static uint16_t twin[WORDS], *map;
static char *pages; /* two of them; the top word of the map ends the first */
static size_t page;

/* Counts the last call; what is wrong with it, if anything, is said. */
static void judge(const char *wrong)
{
    if (wrong == NULL) {
        shared->passed++;
        return;
    }
    shared->failed++;
    if (shared->call == TAKE)
        printf("pages.c: a take: %s\n", wrong);
    else
        printf("pages.c: the give-back of %ld: %s\n", shared->call, wrong);
}

static void need(int holds, const char *what)
{
    if (!holds) {
        perror(what);
        exit(1);
    }
}

static void *memory(size_t bytes, int flag)
{
    void *at = mmap(NULL, bytes, PROT_READ | PROT_WRITE, flag | MAP_ANONYMOUS, -1, 0);

    need(at != MAP_FAILED, "pages.c: mmap");
    return at;
}

/* Both maps: nothing is free in the children below first, and in each of the others its last position alone. */
static void set_up(long first)
{
    long child;

    memset(twin, 0, sizeof twin);
    for (child = first; child < CHILDREN; child++)
        asogeren_dealloc(twin, WORDS, (size_t)(child * CHILD + CHILD - 1));
    need(mprotect(pages, page, PROT_READ | PROT_WRITE) == 0, "pages.c: mprotect");
    memcpy(map, twin, sizeof twin);
    need(mprotect(pages, page, PROT_READ) == 0, "pages.c: mprotect");
}

static struct asogeren_answer play(uint16_t *words, long call)
{
    shared->call = call;
    return call == TAKE ? asogeren_alloc(words, WORDS) : asogeren_dealloc(words, WORDS, (size_t)call);
}

/* Plays a call on both maps, to be answered with this refusal. It turns bits in so many of the children's own words, and none above. */
static void stays(long call, uint64_t refusal, int turns)
{
    uint16_t before[WORDS];
    struct asogeren_answer wanted, got;
    int turned = 0, i;

    memcpy(before, twin, sizeof twin);
    wanted = play(twin, call);
    got = play(map, call);
    for (i = 1; i < WORDS; i += CHILD_WORDS)
        turned += twin[i] != before[i];
    if (wanted.refusal != refusal || twin[0] != before[0] || turned != turns)
        judge("the twin is not as this test wants it");
    else if (got.refusal != wanted.refusal || got.value != wanted.value)
        judge("the answer is not the twin's");
    else if (memcmp(map, twin, sizeof twin) != 0)
        judge("the words are not the twin's");
    else
        judge(NULL);
}

/* Many calls, none of which turns a bit of the top word: each child from first on keeps its last position. The takes are in child first. */
static void no_turns(long first)
{
    long child, leaf, at;

    for (child = first; child < CHILDREN; child++)
        for (leaf = 0; leaf < LEAVES - 1; leaf++) {
            at = child * CHILD + leaf * LEAF + leaf;
            stays(at, ASOGEREN_GIVEN, 1);
            stays(at + 1, ASOGEREN_GIVEN, 0);
            stays(at, ASOGEREN_ALREADY_FREE, 0);
        }
    if (first == CHILDREN)
        stays(TAKE, ASOGEREN_NONE_FREE, 0);
    else {
        for (leaf = 0; leaf < LEAVES - 1; leaf++) {
            stays(TAKE, ASOGEREN_GIVEN, 0);
            stays(TAKE, ASOGEREN_GIVEN, 1);
        }
        for (leaf = 0; leaf < LEAVES - 1; leaf++) {
            stays(first * CHILD + leaf * LEAF + 7, ASOGEREN_GIVEN, 1);
            stays(TAKE, ASOGEREN_GIVEN, 1);
        }
    }
    stays(CAP, ASOGEREN_PAST_END, 0);
}

static void on_the_map(long call) { play(map, call); }

/* How a child process ends that runs this part. */
static int ends(void (*part)(long), long what)
{
    const pid_t child = fork();
    int status;

    need(child >= 0, "pages.c: fork");
    if (child == 0) {
        part(what);
        _exit(0);
    }
    need(waitpid(child, &status, 0) == child, "pages.c: waitpid");
    return status;
}

static int faulted(int status) { return WIFSIGNALED(status) && (WTERMSIG(status) == SIGSEGV || WTERMSIG(status) == SIGBUS); }

/* A call that turns this bit of the top word: the map's faults, and the twin's does it. */
static void turns(long call, long bit)
{
    const uint16_t top = twin[0];
    const int fault = faulted(ends(on_the_map, call));
    const struct asogeren_answer answer = play(twin, call);

    if (answer.refusal != ASOGEREN_GIVEN || (twin[0] ^ top) != 1 << bit)
        judge("the twin is not as this test wants it");
    else
        judge(fault ? NULL : "it turns a bit of the top word and did not fault");
}

static void from(long first)
{
    int status;

    set_up(first);
    status = ends(no_turns, first);
    if (faulted(status))
        judge("it turns no bit of the top word and faulted");
    else if (status != 0)
        judge("it ended the process");
    if (first < CHILDREN) {
        set_up(first);
        turns(TAKE, first);
    }
    if (first > 0) {
        set_up(first);
        turns(first * CHILD - 100, first - 1);
    }
}

int main(void)
{
    const struct rlimit no_core = {0, 0};

    setvbuf(stdout, NULL, _IONBF, 0); /* a fault must not lose what was printed */
    setrlimit(RLIMIT_CORE, &no_core); /* nor leave a file behind */
    page = (size_t)sysconf(_SC_PAGESIZE);
    shared = memory(sizeof *shared, MAP_SHARED);
    pages = memory(2 * page, MAP_PRIVATE);
    map = (uint16_t *)(void *)(pages + page) - 1;

    from(0);
    from(6);
    from(CHILDREN - 1);
    from(CHILDREN); /* nothing is free */
    printf("%lu passed, %lu failed\n", shared->passed, shared->failed);
    return shared->failed != 0;
}
