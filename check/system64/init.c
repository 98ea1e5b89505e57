/* The first process of the emulated system. Starts the words that stand behind `--` on the kernel's command line, with the port to the
 * host as standard input and output, and ends the machine with what became of them. See boot for the other side. */
#define _GNU_SOURCE
#include <fcntl.h>
#include <stdio.h>
#include <stdlib.h>
#include <sys/io.h>
#include <sys/mount.h>
#include <sys/stat.h>
#include <sys/syscall.h>
#include <sys/wait.h>
#include <termios.h>
#include <unistd.h>

/* The machine's status is twice the number that it is ended with, and 1. */
enum { EXIT_PORT = 0xF4, GOOD = 42, BAD = 43 };

/* Each needs those before it. */
static const char *const modules[] = {"virtio", "virtio_ring", "virtio_pci_modern_dev", "virtio_pci_legacy_dev", "virtio_pci",
                                      "virtio_console"};

/* What was said goes out first. */
static void end(int value) {
    tcdrain(2);
    ioperm(EXIT_PORT, 4, 1);
    outl((unsigned)value, EXIT_PORT);
}

static void check(int good, const char *what) {
    if (!good) {
        perror(what);
        end(BAD);
    }
}

static void load(const char *module) {
    char path[64];
    snprintf(path, sizeof path, "/modules/%s.ko", module);
    int file = open(path, O_RDONLY);
    check(file >= 0 && syscall(SYS_finit_module, file, "", 0) == 0, path);
    close(file);
}

/* The port shows some time after its module is loaded. */
static int port(void) {
    int file = -1;
    for (int tries = 0; file < 0 && tries < 1000; tries++) {
        usleep(10000);
        file = open("/dev/vport0p1", O_RDWR);
    }
    check(file >= 0, "/dev/vport0p1");
    return file;
}

int main(int argc, char **argv) {
    mkdir("/proc", 0755);
    mkdir("/tmp", 0777);
    check(mount("proc", "/proc", "proc", 0, "") == 0, "/proc");
    check(mount("dev", "/dev", "devtmpfs", 0, "") == 0, "/dev");
    for (size_t i = 0; i < sizeof modules / sizeof *modules; i++) {
        load(modules[i]);
    }
    int host = port(), status = 0;
    check(argc > 1, "no words");
    pid_t child = fork();
    check(child >= 0, "fork");
    if (child == 0) {
        dup2(host, 0);
        dup2(host, 1);
        close(host);
        execvp(argv[1], argv + 1);
        perror(argv[1]);
        _exit(127);
    }
    check(waitpid(child, &status, 0) == child, "waitpid");
    end(status == 0 ? GOOD : BAD);
    return 1;
}
