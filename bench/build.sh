# What the scripts that time programs share. To be read by `.`: it goes into a temporary folder, which is removed at
# the end. `top` is the top of the repository.

from=$(pwd)
top=$(cd "$(dirname "$0")/.." && pwd)
work=$(mktemp -d)
trap 'rm -rf "$work"' EXIT
trap 'exit 1' HUP INT PIPE TERM
cd "$work" || exit 1

# build CRATE: builds the program in this folder, by `rt run`
build() {
    (cd "$1" && rt run) > build.log 2>&1 || true
    [ -x "$1/out/tce" ] || { tail -20 build.log; exit 1; }
}

# set_program [FILE]: sets `program` to the file, or where none is named to the program of the repository, which is built
set_program() {
    case ${1:-} in
        '')
            build "$top/crates/tce"
            program=$top/crates/tce/out/tce
            ;;
        /*) program=$1 ;;
        *) program=$from/$1 ;;
    esac
}

# copy_crates NAME..: copies crates, with what earlier checks left in their out/
copy_crates() {
    mkdir -p crates
    for crate in "$@"; do
        cp -r "$top/crates/$crate" crates/
        grep "^$crate:" "$top/crates.txt" >> crates.txt
    done
}

# begin_program LIBRARY..: begins a program crates/tce over these libraries
begin_program() {
    mkdir -p crates/tce/src
    echo "tce: $*" >> crates.txt
    cp "$top/HANDLES" .
    git init -q .
}

# make_spent: makes `./spent COMMAND..`, which prints how many microseconds of the processor a command took; what the
# command prints goes into the file that REPORT names, and the most memory that it held, in KiB, into that of PEAK,
# where they name one
make_spent() {
    cat > spent.c <<'C'
#include <stdio.h>
#include <stdlib.h>
#include <sys/resource.h>
#include <sys/wait.h>
#include <unistd.h>

int main(int count, char **words) {
    const char *report = getenv("REPORT");
    pid_t child = fork();
    if (child == 0) {
        if (!freopen(report ? report : "/dev/null", "w", stdout)) _exit(127);
        execvp(words[1], words + 1);
        _exit(127);
    }
    int status = 0;
    struct rusage use;
    if (child < 0 || wait4(child, &status, 0, &use) < 0) return 1;
    const char *peak = getenv("PEAK");
    FILE *held = peak ? fopen(peak, "w") : NULL;
    if (held) {
        fprintf(held, "%ld\n", use.ru_maxrss);
        fclose(held);
    }
    printf("%ld\n", (use.ru_utime.tv_sec + use.ru_stime.tv_sec) * 1000000L + use.ru_utime.tv_usec + use.ru_stime.tv_usec);
    return WIFEXITED(status) ? WEXITSTATUS(status) : 1;
}
C
    gcc -O2 -o spent spent.c
}

# least FILE: the least of the times in a file
least() {
    sort -n "$1" | head -1
}

# least_spent COMMAND..: the least time of the processor of so many rounds
least_spent() {
    : > spent.times
    round=0
    while [ $round -lt "$rounds" ]; do
        ./spent "$@" >> spent.times
        round=$((round + 1))
    done
    least spent.times
}
