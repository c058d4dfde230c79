/* Connections in the child of a fork: forks HOST PORT CERTIFICATE KEY AUTHORITY. Linked with
   --wrap=getpid, by which a child may have its parent's number, as one may that comes much later. */
#define _GNU_SOURCE
#include "testing.h"

#include <dirent.h>
#include <signal.h>
#include <sys/syscall.h>
#include <sys/wait.h>
#include <unistd.h>

pid_t __real_getpid(void);
pid_t __wrap_getpid(void);

static pid_t other_number; /* 0: that of the system */

pid_t __wrap_getpid(void) {
    return other_number ? other_number : __real_getpid();
}

static pid_t same_number(void) {
    pid_t parent = __real_getpid(), child = fork();
    if (child == 0) other_number = parent;
    return child;
}

/* One that the C library knows nothing of. */
static pid_t unseen(void) {
    return (pid_t)syscall(SYS_clone, SIGCHLD, 0, 0, 0, 0);
}

static int open_files(void) {
    int count = 0;
    DIR *files = opendir("/proc/self/fd");
    if (!files) return -1;
    while (readdir(files))
        count++;
    closedir(files);
    return count;
}

/* What the child finds: a status of its own for each thing that is wrong. */
static int in_child(kmip_client *client) {
    int before = open_files();
    if (kmip_call(client, "sign", "CHILD", "00", NULL) != KMIP_LOST) return 2;
    if (kmip_was_sent(client)) return 3;
    if (kmip_error_kind(client) != KMIP_KIND_WRITE) return 4;
    if (open_files() != before - 1) return 5;
    if (kmip_call(client, "sign", "CHILD", "00", NULL) != KMIP_LOST) return 6;
    kmip_close(client);
    return 0;
}

static bool signs(kmip_client *client) {
    size_t length = 0;
    if (kmip_call(client, "sign", "PARENT", "00", NULL) != KMIP_ANSWERED) return false;
    const uint8_t *got = kmip_bytes(client, "signature_data", &length);
    return got && length == 19 && memcmp(got, "signature by PARENT", 19) == 0;
}

static void forks_by(const kmip_settings *settings, pid_t (*by)(void), const char *what) {
    kmip_client *client = opened(settings);
    int status = 0;
    check(signs(client), "a call of the parent");
    pid_t child = by();
    if (child == 0) _exit(in_child(client));
    check(child > 0 && waitpid(child, &status, 0) == child && status == 0, what);
    if (status != 0) printf("        status %d\n", WEXITSTATUS(status));
    check(signs(client), "and the parent's connection is good");
    kmip_close(client);
}

int main(int argc, char **argv) {
    if (argc < 6) return 2;
    kmip_settings settings = settings_of(argv);
    for (int i = 0; i < 2; i++) {
        settings.reconnect = i == 1;
        forks_by(&settings, fork, "a child sends nothing, and closes its copy of the connection");
        forks_by(&settings, same_number, "so does one with its parent's number");
        forks_by(&settings, unseen, "and one that the C library knows nothing of");
    }
    return outcome();
}
