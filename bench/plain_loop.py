"""A plain loop in C that makes batches durable as a journal does: what the syncs alone take."""

import os
import subprocess
import time

# Appends so many batches of so many bytes to a file: the batch with a closed gate behind it, a sync, the gate that opens it, a sync.
LOOP = r"""
#include <fcntl.h>
#include <stdlib.h>
#include <string.h>
#include <unistd.h>

int main(int count, char **words) {
    int file = open(words[1], O_RDWR | O_CREAT | O_TRUNC, 0600);
    long batches = atol(words[2]), bytes = atol(words[3]);
    char body[4096];
    off_t gate = 0;
    memset(body, 1, sizeof body);
    body[bytes - 1] = 0;
    if (count != 4 || file < 0 || write(file, "\0", 1) != 1 || fsync(file)) return 1;
    for (long batch = 0; batch < batches; batch++, gate += bytes) {
        if (pwrite(file, body, bytes, gate + 1) != bytes || fsync(file)) return 1;
        if (pwrite(file, "G", 1, gate) != 1 || fsync(file)) return 1;
    }
    return 0;
}
"""


class Loop:
    """The plain loop, compiled."""

    def __init__(self, folder):
        self.folder, self.path = folder, os.path.join(folder, "loop")
        subprocess.run(["cc", "-O2", "-x", "c", "-", "-o", self.path], input=LOOP.encode(), check=True)

    def seconds(self, batches, size):
        begun = time.perf_counter()
        subprocess.run([self.path, os.path.join(self.folder, "bytes"), str(batches), str(size)], check=True)
        return time.perf_counter() - begun
