/* Starts programs by posix_spawn, so many at once, each in a folder of its own that is made before and removed after it; what a
 * realiser can't do without. Usage: loop JOBS FILE. The file has words that end in a NUL: for each program its folder, how many
 * arguments and how many entries of an environment there are, those, and these. */
#define _GNU_SOURCE
#include <fcntl.h>
#include <spawn.h>
#include <stdio.h>
#include <stdlib.h>
#include <string.h>
#include <sys/stat.h>
#include <sys/wait.h>
#include <unistd.h>

enum { MOST_WORDS = 64, MOST_JOBS = 64 };

struct job {
    char *folder;
    char *args[MOST_WORDS + 1];
    char *env[MOST_WORDS + 1];
};

struct running {
    pid_t pid;
    char *folder;
};

static void fail(const char *what)
{
    perror(what);
    exit(1);
}

static char *next_word(char **at)
{
    char *word = *at;
    *at += strlen(word) + 1;
    return word;
}

static int next_count(char **at)
{
    int count = atoi(next_word(at));
    if (count < 0 || count > MOST_WORDS)
        exit(1);
    return count;
}

static void next_words(char **at, char **words, int count)
{
    for (int i = 0; i < count; i++)
        words[i] = next_word(at);
    words[count] = NULL;
}

static struct job next_job(char **at)
{
    struct job job = {.folder = next_word(at)};
    int args = next_count(at);
    int env = next_count(at);
    next_words(at, job.args, args);
    next_words(at, job.env, env);
    return job;
}

static struct running start(struct job *job, posix_spawnattr_t *attributes)
{
    struct running running = {.folder = job->folder};
    posix_spawn_file_actions_t actions;
    if (mkdir(job->folder, 0700) != 0)
        fail(job->folder);
    posix_spawn_file_actions_init(&actions);
    posix_spawn_file_actions_addopen(&actions, 0, "/dev/null", O_RDONLY, 0);
    posix_spawn_file_actions_addopen(&actions, 1, "/dev/null", O_WRONLY, 0);
    posix_spawn_file_actions_addopen(&actions, 2, "/dev/null", O_WRONLY, 0);
    posix_spawn_file_actions_addchdir_np(&actions, job->folder);
    if (posix_spawn(&running.pid, job->args[0], &actions, attributes, job->args, job->env) != 0)
        fail(job->args[0]);
    posix_spawn_file_actions_destroy(&actions);
    return running;
}

/* Waits for one of the programs, and gives its place. */
static int wait_for_one(struct running *running, int count)
{
    int status;
    pid_t pid = wait(&status);
    if (pid < 0 || status != 0)
        fail("wait");
    for (int i = 0; i < count; i++)
        if (running[i].pid == pid) {
            if (rmdir(running[i].folder) != 0)
                fail(running[i].folder);
            return i;
        }
    exit(1);
}

static char *read_file(const char *path, size_t *length)
{
    struct stat stat_of;
    FILE *file = fopen(path, "rb");
    if (file == NULL || fstat(fileno(file), &stat_of) != 0)
        fail(path);
    char *bytes = malloc(stat_of.st_size + 1);
    *length = fread(bytes, 1, stat_of.st_size, file);
    fclose(file);
    return bytes;
}

int main(int count, char **words)
{
    struct running running[MOST_JOBS];
    int started = 0;
    int jobs = count == 3 ? atoi(words[1]) : 0;
    if (jobs < 1 || jobs > MOST_JOBS)
        return 2;
    size_t length;
    char *at = read_file(words[2], &length);
    char *end = at + length;
    posix_spawnattr_t attributes;
    posix_spawnattr_init(&attributes);
    while (at < end) {
        struct job job = next_job(&at);
        int place = started < jobs ? started++ : wait_for_one(running, started);
        running[place] = start(&job, &attributes);
    }
    while (started > 0) {
        int place = wait_for_one(running, started);
        running[place] = running[--started];
    }
    return 0;
}
