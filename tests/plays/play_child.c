/* A child of hooks, for process_plays.py and long_runs.py, beside it. What it answers follows from its words and from the files
   that it has seen by them, as docs/REFERENCE.md says which these are, so that it would answer the same again. It is started as

     play_child LETTERS WORD..

   and has seen the files below its folder that a word names, a word `--also=PATH` too, or all of them where a word is
   `--whole`. The letters say what it may do: `c` gives seen files other bytes, `d` removes some, `n` makes files that weren't there and such as can be
   executed, `s` strays, which changes a file that it hasn't seen, `f` fails, `o` writes more than is taken of a child, and
   `t` also prints what the file says that PLAY_CLOCK names. Other characters say nothing.

   Each start puts one line at the end of the file that PLAY_LOG names, before anything is changed or printed: how it will end,
   the letters, a digest of its words and of the files that it has seen, and their paths, all with tabs between them. A line
   `broken` says that a child finds what can't be. */
#define _XOPEN_SOURCE 700
#include <fcntl.h>
#include <ftw.h>
#include <inttypes.h>
#include <signal.h>
#include <stdbool.h>
#include <stdio.h>
#include <stdlib.h>
#include <string.h>
#include <sys/stat.h>
#include <unistd.h>

#define CONFIGURATION ".pre-commit-config.yaml"
/* A file that is always there, so that whether a child strays follows from what it has seen. */
#define ANCHOR "anchor"

enum { MOST_ENTRIES = 256, MOST_LINE = 16384, MOST_OUTPUT = 1048576 };

/* What lies below the folder. */
struct entry {
    char *path, *bytes;
    size_t length;
    int kind, is_executable;
    bool is_seen;
};

static struct entry entries[MOST_ENTRIES];
static size_t entry_count;
static const char *letters = "";
static uint64_t digest = 14695981039346656037u, state;

static void put_in_log(const char *line, size_t length) {
    const char *place = getenv("PLAY_LOG");
    int log = place == NULL ? -1 : open(place, O_WRONLY | O_CREAT | O_APPEND, 0600);
    if (log < 0 || write(log, line, length) != (ssize_t)length) abort();
    close(log);
}

/* What doesn't hold is told in the log, since a child that ends by a signal may be one that has to. */
static void must(bool holds) {
    if (holds) return;
    put_in_log("broken\n", 7);
    abort();
}

/* FNV-1a over eight bytes at a time, with zeros behind the last ones, so that tests/shared/host_books.py tells the digest of a long word in no
   time. What differs in the upper bits alone has to reach the lower ones. */
static void digest_bytes(const void *bytes, size_t length) {
    for (const unsigned char *at = bytes; length > 0;) {
        uint64_t piece = 0;
        size_t count = length < sizeof piece ? length : sizeof piece;
        memcpy(&piece, at, count);
        digest = (digest ^ piece) * 1099511628211u;
        digest ^= digest >> 32;
        at += count;
        length -= count;
    }
}

/* Texts are told apart by the zero byte at their end. */
static void digest_text(const char *text) { digest_bytes(text, strlen(text) + 1); }

/* A number below another, which follows from the digest and from how often it was asked for. */
static unsigned draw(unsigned below) {
    state = state * 6364136223846793005u + 1442695040888963407u;
    return (unsigned)(state >> 33) % below;
}

static bool may(char letter) { return strchr(letters, letter) != NULL; }

static int found(const char *path, const struct stat *about, int kind, struct FTW *place) {
    if (place->level == 0) return 0;
    must(entry_count < MOST_ENTRIES);
    /* Whoever may read a file may execute it, or nobody. */
    mode_t execute = about->st_mode & 0111, read = (about->st_mode & 0444) >> 2;
    must(kind != FTW_F || execute == 0 || execute == read);
    entries[entry_count++] = (struct entry){.path = strdup(path + strlen("./")), .kind = kind, .is_executable = kind == FTW_F && execute != 0};
    return 0;
}

static int by_path(const void *one, const void *other) {
    return strcmp(((const struct entry *)one)->path, ((const struct entry *)other)->path);
}

static void read_bytes(struct entry *entry) {
    struct stat about;
    FILE *file = fopen(entry->path, "rb");
    must(file != NULL && fstat(fileno(file), &about) == 0);
    entry->length = (size_t)about.st_size;
    entry->bytes = malloc(entry->length + 1);
    must(fread(entry->bytes, 1, entry->length, file) == entry->length);
    fclose(file);
}

static void write_bytes(const char *path, const char *how, const char *bytes, size_t length) {
    FILE *file = fopen(path, how);
    must(file != NULL && fwrite(bytes, 1, length, file) == length && fclose(file) == 0);
}

static const char *without(const char *prefix, const char *word) {
    size_t length = strlen(prefix);
    return strncmp(word, prefix, length) == 0 ? word + length : word;
}

static bool is_named(const char *path, char **words) {
    for (; *words != NULL; words++)
        if (strcmp(without("./", *words), path) == 0 || strcmp(without("--also=", *words), path) == 0) return true;
    return false;
}

static bool is_whole(char **words) {
    for (; *words != NULL; words++)
        if (strcmp(*words, "--whole") == 0) return true;
    return false;
}

/* Finds what lies below the folder, and takes into the digest the words, the seen files, and where all are seen what else is
   there. */
static void look(char **words) {
    bool whole = is_whole(words);
    must(nftw(".", found, 16, FTW_PHYS) == 0);
    qsort(entries, entry_count, sizeof entries[0], by_path);
    for (char **word = words + 1; *word != NULL; word++) digest_text(*word);
    for (struct entry *entry = entries; entry < entries + entry_count; entry++) {
        entry->is_seen = entry->kind == FTW_F && (whole || is_named(entry->path, words));
        if (!entry->is_seen && !whole) continue;
        if (entry->is_seen) read_bytes(entry);
        digest_text(entry->path);
        digest_bytes(&entry->kind, sizeof entry->kind);
        digest_bytes(&entry->is_executable, sizeof entry->is_executable);
        digest_bytes(&entry->length, sizeof entry->length);
        digest_bytes(entry->bytes, entry->length);
    }
    state = digest;
}

static struct entry *seen_at(const char *path) {
    for (struct entry *entry = entries; entry < entries + entry_count; entry++)
        if (entry->is_seen && (path == NULL || strcmp(entry->path, path) == 0)) return entry;
    return NULL;
}

/* Says that it was started, in one write, so that no other line comes between. */
static void note(const char *ending) {
    char line[MOST_LINE];
    int length = snprintf(line, sizeof line, "%s\t%s\t%016" PRIx64, ending, letters, digest);
    for (struct entry *entry = entries; entry < entries + entry_count; entry++)
        if (entry->is_seen) length += snprintf(line + length, sizeof line - (size_t)length, "\t%s", entry->path);
    must(length < MOST_LINE - 1);
    line[length++] = '\n';
    put_in_log(line, (size_t)length);
}

/* Writes a seen file anew: another text, one line more, or nothing. A script keeps the line that says by what it is run. */
static void change(const struct entry *entry) {
    char text[32];
    const char *end = memchr(entry->bytes, '\n', entry->length);
    bool is_script = end != NULL && strncmp(entry->bytes, "#!", 2) == 0;
    size_t kept = is_script ? (size_t)(end - entry->bytes) + 1 : 0;
    unsigned what = draw(8), number = draw(3);
    snprintf(text, sizeof text, "%s %u\n", what < 5 ? "written" : "more", number);
    if (what < 5 || what == 7) write_bytes(entry->path, "wb", entry->bytes, kept);
    if (what < 7) write_bytes(entry->path, "ab", text, strlen(text));
}

static void make_new_files(void) {
    struct entry *seen = seen_at(NULL);
    must(mkdir("made", 0700) == 0);
    write_bytes("made/file", "wb", "made\n", 5);
    must(chmod("made/file", 0755) == 0 && symlink(ANCHOR, "made/link") == 0);
    if (seen != NULL) must(chmod(seen->path, 0755) == 0);
}

static void do_all(bool strays) {
    if (may('n') && draw(2) == 0) make_new_files();
    for (struct entry *entry = entries; entry < entries + entry_count; entry++) {
        if (!entry->is_seen || strcmp(entry->path, CONFIGURATION) == 0) continue;
        bool removes = may('d') && strcmp(entry->path, ANCHOR) != 0 && draw(8) == 0;
        if (removes) must(unlink(entry->path) == 0);
        else if (may('c') && draw(8) == 0) change(entry);
    }
    if (strays) write_bytes(ANCHOR, "ab", "stray\n", 6);
}

static void print_clock(void) {
    char text[32] = "";
    const char *place = getenv("PLAY_CLOCK");
    FILE *file = place == NULL ? NULL : fopen(place, "rb");
    must(file != NULL && fgets(text, sizeof text, file) != NULL && fclose(file) == 0);
    printf("clock %016" PRIx64 " %s\n", digest, text);
}

static void print(void) {
    if (draw(3) == 0) fprintf(stderr, "erred %u\n", draw(100));
    if (draw(4) > 0) printf(" \n\tsaid %016" PRIx64 "\n\n", digest);
    if (draw(5) == 0) fwrite("\xff\0\r\n", 1, 4, stdout);
    if (may('t')) print_clock();
    fflush(stdout);
}

static void write_too_much(void) {
    for (int count = 0; count <= MOST_OUTPUT; count++) putchar('m');
}

/* Ends by a signal, or leaves a folder in place of a seen file. */
static void fail(void) {
    struct entry *seen = seen_at(NULL);
    int number = draw(2) == 0 ? SIGKILL : SIGTERM;
    if (seen != NULL && draw(3) == 0) {
        unlink(seen->path);
        must(mkdir(seen->path, 0700) == 0);
        exit(0);
    }
    signal(number, SIG_DFL);
    raise(number);
    abort();
}

int main(int count, char **words) {
    static const int statuses[] = {1, 255};
    if (count > 1) letters = words[1];
    look(words);
    bool fails = may('f') && draw(3) == 0, floods = may('o') && draw(2) == 0;
    bool strays = may('s') && draw(2) == 0 && seen_at(ANCHOR) == NULL;
    note(fails || floods ? "fails" : strays ? "strays" : "answers");
    do_all(strays);
    print();
    if (floods) write_too_much();
    if (fails) fail();
    return draw(16) == 0 ? statuses[draw(2)] : 0;
}
