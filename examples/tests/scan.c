/* A test of a scanner in C: `scan CHANNELS SERVICE ..` runs dvbv5-scan, and each of these services, by its service_id, must be in what it
   has found. It runs below `served`, so that the scanner finds an adapter. The scanner writes into a file without a name, so nothing is
   left of it however this ends, and tests that run side by side have a file each. */
#include <stdio.h>
#include <string.h>
#include <sys/wait.h>
#include <unistd.h>

/* Runs the scanner, which writes into a file, and gives its status. */
static int scanned(const char *channels, FILE *file) {
    int status;
    char path[32];
    snprintf(path, sizeof path, "/dev/fd/%d", fileno(file));
    pid_t child = fork();
    if (child == 0) {
        execlp("dvbv5-scan", "dvbv5-scan", "-o", path, channels, (char *)NULL);
        perror("dvbv5-scan");
        _exit(127);
    }
    if (child < 0 || waitpid(child, &status, 0) != child)
        return -1;
    return WIFEXITED(status) ? WEXITSTATUS(status) : -1;
}

/* Whether a line of the file names this service; all services are told where none does. */
static int has(FILE *file, const char *service) {
    char line[256], name[256], others[1024] = "";
    rewind(file);
    while (fgets(line, sizeof line, file) != NULL) {
        if (sscanf(line, " SERVICE_ID = %255s", name) != 1)
            continue;
        if (strcmp(name, service) == 0)
            return 1;
        snprintf(others + strlen(others), sizeof others - strlen(others), " %s", name);
    }
    fprintf(stderr, "no service %s; found:%s\n", service, others);
    return 0;
}

int main(int count, char **words) {
    int missing = 0;
    if (count < 3) {
        fprintf(stderr, "usage: scan CHANNELS SERVICE ..\n");
        return 2;
    }
    FILE *file = tmpfile();
    if (file == NULL) {
        perror("a file");
        return 1;
    }
    if (scanned(words[1], file) != 0) {
        fprintf(stderr, "dvbv5-scan failed\n");
        return 1;
    }
    for (int at = 2; at < count; at++)
        missing += !has(file, words[at]);
    return missing ? 1 : 0;
}
