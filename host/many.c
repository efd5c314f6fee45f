/* Workers take the jobs in turn and keep what each says in memory; the main thread prints the parts in order and shows how far the work
 * is. One job at a time with nobody to show it to needs no thread: it prints by itself.
 */
#include "many.h"

/* The stack of a worker. The library's judge takes some 330 KB of it. */
#define STACK ((size_t)4 << 20)
#define MOST_WORKERS ((size_t)64)

/* What a job said. */
typedef struct {
    char *out;
    char *err;
    size_t out_length;
    size_t err_length;
    int status;
    int done;
} Part;

typedef struct {
    Job job;
    const void *given;
    size_t count;
    size_t ahead;   /* so many parts may wait for their turn */
    Part *parts;
    size_t next;    /* the next job to be taken */
    size_t printed; /* jobs whose part is printed */
    size_t finished;
    pthread_mutex_t lock;
    pthread_cond_t changed;
} Work;

/* ---- the workers */

static void do_job(const Work *work, size_t i, Part *part)
{
    FILE *out = open_memstream(&part->out, &part->out_length);
    FILE *err = open_memstream(&part->err, &part->err_length);
    int failed = out == NULL || err == NULL;
    if (!failed) {
        part->status = work->job(work->given, i, out, err);
    }
    if (out != NULL) {
        failed |= ferror(out) | fclose(out);
    }
    if (err != NULL) {
        failed |= ferror(err) | fclose(err);
    }
    if (failed) {
        part->status = -1;
    }
}

static void *worker(void *given)
{
    Work *work = given;
    pthread_mutex_lock(&work->lock);
    while (work->next < work->count) {
        if (work->next >= work->printed + work->ahead) {
            pthread_cond_wait(&work->changed, &work->lock);
            continue;
        }
        size_t i = work->next++;
        Part part = {0};
        pthread_mutex_unlock(&work->lock);
        do_job(work, i, &part);
        pthread_mutex_lock(&work->lock);
        part.done = 1;
        work->parts[i] = part;
        work->finished++;
        pthread_cond_broadcast(&work->changed);
    }
    pthread_mutex_unlock(&work->lock);
    return NULL;
}

/* Answers how many could be started. */
static size_t start_workers(Work *work, pthread_t *threads, size_t wanted)
{
    pthread_attr_t attributes;
    size_t started = 0;
    if (pthread_attr_init(&attributes) != 0) {
        return 0;
    }
    pthread_attr_setstacksize(&attributes, STACK);
    while (started < wanted && pthread_create(&threads[started], &attributes, worker, work) == 0) {
        started++;
    }
    pthread_attr_destroy(&attributes);
    return started;
}

/* ---- the main thread */

static void show_progress(const Work *work, long seconds)
{
    if (work->count == 1) {
        fprintf(stderr, "\rstragumella: at work for %ld s", seconds);
    } else {
        fprintf(stderr, "\rstragumella: %zu of %zu files, %ld s", work->finished, work->count, seconds);
    }
    fflush(stderr);
}

static void hide_progress(void)
{
    fputs("\r\033[K", stderr);
    fflush(stderr);
}

/* Waits until part i is there; behind the first second of all the work the progress is shown, if anybody sees it. */
static void wait_for(Work *work, size_t i, int seen, const struct timespec *start)
{
    int shown = 0;
    while (!work->parts[i].done) {
        struct timespec until;
        clock_gettime(CLOCK_REALTIME, &until);
        long seconds = (long)(until.tv_sec - start->tv_sec);
        if (seen && (seconds > 1 || (seconds == 1 && until.tv_nsec >= start->tv_nsec))) {
            show_progress(work, seconds);
            shown = 1;
        }
        until.tv_nsec += 250000000;
        if (until.tv_nsec >= 1000000000) {
            until.tv_nsec -= 1000000000;
            until.tv_sec++;
        }
        pthread_cond_timedwait(&work->changed, &work->lock, &until);
    }
    if (shown) {
        hide_progress();
    }
}

static int print_part(Part *part)
{
    int status = part->status;
    if (status < 0) {
        fputs("stragumella: no memory for what there is to say\n", stderr);
        status = 2;
    } else {
        fwrite(part->out, 1, part->out_length, stdout);
        if (part->err_length > 0) {
            fflush(stdout);
            fwrite(part->err, 1, part->err_length, stderr);
        }
    }
    free(part->out);
    free(part->err);
    return status;
}

static int print_all(Work *work, int seen)
{
    int status = 0;
    struct timespec start;
    clock_gettime(CLOCK_REALTIME, &start);
    pthread_mutex_lock(&work->lock);
    for (size_t i = 0; i < work->count; i++) {
        wait_for(work, i, seen, &start);
        Part part = work->parts[i];
        work->printed++;
        pthread_cond_broadcast(&work->changed);
        pthread_mutex_unlock(&work->lock);
        int one = print_part(&part);
        status = one > status ? one : status;
        pthread_mutex_lock(&work->lock);
    }
    pthread_mutex_unlock(&work->lock);
    return status;
}

/* ---- without workers */

static int do_alone(size_t count, Job job, const void *given)
{
    int status = 0;
    for (size_t i = 0; i < count; i++) {
        int one = job(given, i, stdout, stderr);
        status = one > status ? one : status;
    }
    return status;
}

int do_many(size_t count, size_t at_once, Job job, const void *given)
{
    pthread_t threads[MOST_WORKERS];
    Work work = {.job = job, .given = given, .count = count};
    int seen = isatty(STDERR_FILENO);
    size_t wanted = at_once < count ? at_once : count;
    wanted = wanted < MOST_WORKERS ? wanted : MOST_WORKERS;
    if (wanted == 1 && !seen) {
        return do_alone(count, job, given);
    }
    work.ahead = 2 * wanted;
    work.parts = calloc(count, sizeof *work.parts);
    if (work.parts == NULL || pthread_mutex_init(&work.lock, NULL) != 0 || pthread_cond_init(&work.changed, NULL) != 0) {
        free(work.parts);
        return do_alone(count, job, given);
    }
    size_t started = start_workers(&work, threads, wanted);
    if (started == 0) {
        free(work.parts);
        return do_alone(count, job, given);
    }
    int status = print_all(&work, seen);
    for (size_t i = 0; i < started; i++) {
        pthread_join(threads[i], NULL);
    }
    free(work.parts);
    return status;
}
