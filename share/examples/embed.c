/* Holds an APL session in a C program: each call gives the workspace that the next one begins with.
 *
 *     bin/check-embedding FOLDER && cc -std=c99 -IFOLDER share/examples/embed.c FOLDER/libapl.a -o embed && ./embed */
#include <apl.h>
#include <stdio.h>
#include <stdlib.h>
#include <string.h>

/* Bytes on the heap, with room for at least one, so that they have a place. */
struct bytes {
    uint8_t *at;
    size_t length, room;
};

static void want(struct bytes *bytes, size_t room) {
    if (room <= bytes->room)
        return;
    free(bytes->at);
    bytes->at = calloc(room, 1);
    if (!bytes->at) {
        fputs("embed: memory\n", stderr);
        exit(1);
    }
    bytes->room = room;
}

/* Plays lines on the workspace, which it replaces if they are played, and prints what they write. Returns the call's number. */
static uint32_t play(struct bytes *workspace, const char *lines) {
    static struct bytes transcript, after;
    struct apl_sizes sizes;
    uint32_t number;
    want(&transcript, 8);
    want(&after, 256);
    for (;;) {
        number = apl_play(workspace->at, workspace->length, (const uint8_t *)lines, strlen(lines), 1000000, transcript.at,
                          transcript.room, after.at, after.room, &sizes);
        if (number != APL_BUFFER)
            break;
        printf("(%zu and %zu bytes are needed)\n", sizes.transcript, sizes.workspace);
        want(&transcript, sizes.transcript);
        want(&after, sizes.workspace);
    }
    fwrite(transcript.at, 1, sizes.transcript, stdout);
    if (number == APL_FINE) {
        struct bytes before = *workspace;
        after.length = sizes.workspace;
        *workspace = after;
        after = before;
    } else {
        printf("(refused: %u)\n", (unsigned)number);
    }
    return number;
}

int main(void) {
    struct bytes workspace = {0};
    want(&workspace, 1);
    if (apl_version() < APL_VERSION) {
        fputs("embed: the library is older than apl.h\n", stderr);
        return 1;
    }

    puts("-- a clear workspace");
    play(&workspace, "2+3×4\n");

    puts("-- a function whose statement is left half done by a fault");
    play(&workspace, "∇R←HALF N\nR←N÷2 2\n∇\n10+HALF 4 6 8\n");

    puts("-- it goes on in the next call");
    play(&workspace, "N←4 6\n→1\n");

    puts("-- a damaged workspace");
    workspace.length--;
    play(&workspace, "2+2\n");
    workspace.length++;

    puts("-- a line that is too long, behind one that isn't");
    char lines[2010] = "N←2\nN\n";
    size_t length = strlen(lines);
    memset(lines + length, '1', sizeof lines - length - 1);
    play(&workspace, lines);

    puts("-- the workspace");
    fwrite(workspace.at, 1, workspace.length, stdout);
    putchar('\n');
    return 0;
}
