/* The APL machine in another program: one call, which needs the workspace's bytes and the lines that are typed,
 * and one that tells the version.
 *
 *     bin/check-embedding FOLDER                        puts libapl.a, libapl.so and this file into FOLDER
 *     cc -std=c99 -IFOLDER program.c FOLDER/libapl.a
 *
 * docs/EMBEDDING.md has examples, and says what is proved of the call. */
#ifndef APL_H
#define APL_H

#include <stddef.h>
#include <stdint.h>

#ifdef __cplusplus
extern "C" {
#endif

/* What a call answers. Each number that isn't 0 leaves the caller with the workspace that it gave. */
enum apl_number {
    APL_FINE = 0,           /* The lines were played. */
    APL_NOT_JSON = 1,       /* The workspace isn't JSON. */
    APL_FORM = 2,           /* It hasn't the form of a workspace. */
    APL_ARRAY = 3,          /* An array doesn't fit its shape, or holds a character that the language hasn't. */
    APL_DEFINITION = 4,     /* A function or a variable isn't one, or stands in the wrong place. */
    APL_CONTEXT = 5,        /* A half-done statement, call or text is against the rules. */
    APL_CODE = 6,           /* The code of a half-done line isn't that of its text. */
    APL_LIMIT = 7,          /* An array is too large, or over 256 calls and executes stand. */
    APL_MEMORY = 8,         /* Memory has run out, anywhere. */
    APL_BUFFER = 9,         /* A buffer is too small: the sizes tell what both need. Neither was written to. */
    APL_LINE_TOO_LONG = 14, /* A line has over 2,000 bytes. The transcript is that of the lines before it. */
    APL_TOO_MANY_LINES = 15 /* There are over 1,000,000 lines. The transcript is that of these. */
};

/* How many bytes a call gives, or would give if its buffers were large enough. */
struct apl_sizes {
    size_t transcript;
    size_t workspace;
};

/* Plays lines on a workspace.
 *
 * workspace, workspace_length    the file of a workspace, as docs/WORKSPACE.md describes it; of length 0: a clear workspace
 * lines, lines_length            what is typed, in UTF-8. A line ends with a line feed, and a carriage return before it is dropped;
 *                                bytes behind the last line feed are a line too. Each has at most 2,000 bytes
 * steps                          the most steps that each line makes before it is interrupted, 1,000,000 in the program apl
 * transcript, transcript_room    a buffer for what the lines write, in UTF-8, each line of it with its line feed
 * after, after_room              a buffer for the file of the workspace after the lines, with all statements that are half done. A
 *                                definition that is open at the end is left out
 * sizes                          how many bytes of the buffers were filled; with APL_BUFFER how many they must have
 *
 * It returns one of the numbers above. What it gives depends on its bytes and the steps alone, so a call whose buffer is too small
 * may be made again, and nothing lives between two calls but what it gave.
 *
 * No pointer is null, also where its length is 0. The buffers overlap neither each other nor what is read. The call takes its
 * memory from malloc. It starts no thread, takes no lock and keeps no state, so calls may be made in several threads at once; not
 * in a signal handler, nor in the child of a fork of a process with threads. */
uint32_t apl_play(const uint8_t *workspace, size_t workspace_length,
                  const uint8_t *lines, size_t lines_length,
                  uint64_t steps,
                  uint8_t *transcript, size_t transcript_room,
                  uint8_t *after, size_t after_room,
                  struct apl_sizes *sizes);

/* The version that this file declares, a day as the number YYYYMMDD. */
#define APL_VERSION 20261201

/* Returns the version of the library that the program runs with, which may be another one than APL_VERSION where it is a shared object. A later
 * version has a larger number. */
uint32_t apl_version(void);

#ifdef __cplusplus
}
#endif

#endif
