/* Lizhakoven for C and C++: checks texts of PuzzleScript games, and plays them with keys, at once or in sessions.

   Texts, keys and outputs are bytes. A length counts bytes; a text or an output has no zero at its end. docs/LANGUAGE.md says what
   a text and a key mean.

   Pointers. A pointer is never NULL, also where its length is 0. Texts and keys are only read. They, outputs, names, cells, games, sessions
   and what a call tells don't overlap. A call keeps none of them: when it has returned, nothing of the caller's memory is used any more.
   All memory that a call took is free again, but for that of the games and sessions that it leaves open.

   Errors. A call answers one of the statuses below. It prints nothing, ends no program, and returns on every input; errno may be
   another afterwards. A game made for it can keep a run busy for hours: a caller that plays strangers' texts limits the time.

   Threads. Nothing is kept between calls but open games and sessions. Any number of threads may call at once, each with memory of its own
   for outputs, cells and what the call tells. A game, all sessions that were started in it and all their copies share what was read: they
   are used by one thread at a time, also where the game is closed. No call is made in a signal handler, nor in a forked child of a process
   with threads.

   Memory is taken by malloc and realloc, and given back by free: a run takes that of its game, and up to twice its output. A game keeps its
   text and what was read of it. A session keeps that, too, which it shares, and a byte for each key. After a look it also
   keeps the boards of its level, and those that undo goes back to; a copy keeps only the former. */
#ifndef LIZHAKOVEN_H
#define LIZHAKOVEN_H

#include <stdbool.h>
#include <stddef.h>
#include <stdint.h>

#ifdef __cplusplus
extern "C" {
#endif

/* The version that this file belongs to. While the first number is 0, programs are to be compiled anew for each second number. */
#define LZK_VERSION_MAJOR 0
#define LZK_VERSION_MINOR 3
#define LZK_VERSION_PATCH 0

/* What a call came to. */
enum lzk_status {
    LZK_DONE = 0,          /* all that was asked for is done */
    LZK_REFUSED = 1,       /* the text is no game: its first fault is told */
    LZK_MEMORY = 2,        /* out of memory */
    LZK_NO_ROOM = 3,       /* what is told is longer than the room for it */
    LZK_TOO_MANY_KEYS = 4, /* there are more keys than a run reads: 16,777,216 times 4,096 bytes */
    LZK_NO_LEVEL = 5,      /* the game has no level of that number */
    LZK_CLOSED = 6,        /* the game or the session isn't open */
    LZK_NO_OBJECT = 7      /* the game has no object of that number */
};

/* How a run ended. */
enum lzk_ending {
    LZK_NO_ENDING = 0,  /* it didn't: see the status */
    LZK_THE_END = 1,    /* the game is over */
    LZK_QUIT = 2,       /* the player quit */
    LZK_END_OF_KEYS = 3 /* the keys ended before the game */
};

/* Where a session is. */
enum lzk_phase {
    LZK_NO_PHASE = 0, /* nothing is told: see the status */
    LZK_PLAYING = 1,  /* in a level */
    LZK_MESSAGE = 2,  /* at a message, which the key x dismisses */
    LZK_OVER = 3,     /* the game is over */
    LZK_HAS_QUIT = 4  /* the player quit */
};

/* Stands in a cell where a layer is bare: no object has this number. */
#define LZK_NOTHING UINT32_MAX

/* The first fault of a text. Without a fault all of it is zeros. */
typedef struct lzk_fault {
    uint32_t line;  /* the line that has it, counted from 1 */
    char words[32]; /* the code of its cause, a blank and the cause's name, as "RU7 Unbound", ended by a zero */
} lzk_fault;

/* How large a game is. */
typedef struct lzk_size {
    uint32_t objects;
    uint32_t layers;
    size_t rules;  /* as they are written; starts and ends of loops aren't counted */
    size_t levels; /* messages aren't counted */
} lzk_size;

/* What a check found. */
typedef struct lzk_finding {
    lzk_size size;   /* zeros, unless the status is LZK_DONE */
    lzk_fault fault; /* zeros, unless the status is LZK_REFUSED */
} lzk_finding;

/* What a run came to. */
typedef struct lzk_outcome {
    size_t length;   /* how many bytes it has written */
    uint32_t ending; /* one of lzk_ending: LZK_NO_ENDING, unless the status is LZK_DONE */
    lzk_fault fault; /* zeros, unless the status is LZK_REFUSED */
} lzk_outcome;

/* Where a session is. In a level, also where a message waits there, its size and its number are told; elsewhere these are zeros. */
typedef struct lzk_place {
    uint32_t phase;  /* one of lzk_phase */
    uint32_t width;  /* columns */
    uint32_t height; /* rows */
    uint32_t layers; /* collision layers */
    size_t level;    /* levels alone are counted, from 1 */
} lzk_place;

/* A game that was read. It begins as LZK_NO_GAME, and is opaque: only the calls below read or write it. It may be moved to another place in
   memory. Of a value that was copied as bytes only one is used. What is dropped without lzk_close is lost. */
typedef struct lzk_game {
    void *at;
    bool is_open;
} lzk_game;

#define LZK_NO_GAME {NULL, false}

/* A session, of which all that is true, too. It begins as LZK_NO_SESSION, and is ended by lzk_end. */
typedef struct lzk_session {
    void *at;
    bool is_open;
} lzk_session;

#define LZK_NO_SESSION {NULL, false}

/* Tells the version of the library that is called. */
void lzk_version(uint32_t *major, uint32_t *minor, uint32_t *patch);

/* Checks a text. What it found is written anew, whatever stood there.

   LZK_DONE     the text is a game, of the size that is told
   LZK_REFUSED  it isn't: its first fault is told
   LZK_MEMORY   nothing was found out */
uint32_t lzk_check(const uint8_t *text, size_t text_length, lzk_finding *finding);

/* Plays the game of a text with keys, and writes its output from the first byte of `output` on, as `ps_play GAME < KEYS` writes it to
   standard output. `room` is how many bytes there are for it. The bytes after those that are written stay as they were. The outcome
   is written anew, whatever stood there.

   LZK_DONE           the output is whole, and the run ended as is told
   LZK_REFUSED        the text is no game: its first fault is told, and nothing is written
   LZK_NO_ROOM        `room` bytes are written: a front of the output, which is longer
   LZK_MEMORY         a front of the output is written, but not all of it; perhaps nothing
   LZK_TOO_MANY_KEYS  a front of the output is written, but not all of it */
uint32_t lzk_run(const uint8_t *text, size_t text_length, const uint8_t *keys, size_t keys_length, uint8_t *output, size_t room,
                 lzk_outcome *outcome);

/* Opens the game of a text: it is read once, for all sessions that are started in it. The fault is written anew, whatever stood there.

   LZK_DONE     the game is open; one that was open at that place is closed
   LZK_REFUSED  the text is no game: its first fault is told
   LZK_MEMORY   out of memory

   But for LZK_DONE the game is as before. */
uint32_t lzk_open(const uint8_t *text, size_t text_length, lzk_game *game, lzk_fault *fault);

/* Writes how an object is called, as the text of the game writes it, to the front of `name`. There are `room` bytes for it. Objects are
   numbered from 0, in the order of OBJECTS. The length is written anew, whatever stood there.

   LZK_DONE       `length` bytes are written, and those after them stay as they were
   LZK_NO_ROOM    the name has `length` bytes, which is more than `room`
   LZK_NO_OBJECT  the game has no object of that number
   LZK_MEMORY     out of memory
   LZK_CLOSED     the game isn't open

   But for LZK_DONE the name is as before. */
uint32_t lzk_object_name(lzk_game *game, uint32_t object, uint8_t *name, size_t room, size_t *length);

/* Closes a game. Its sessions go on, and its memory is free once they have ended. A game that isn't open stays so. */
void lzk_close(lzk_game *game);

/* Starts a session at a level of a game. Levels alone are counted, from 1. The game stays open, and may be closed before the session ends.

   LZK_DONE      the session is open, and begins there; one that was open at that place is ended
   LZK_NO_LEVEL  the game has no such level
   LZK_MEMORY    out of memory
   LZK_CLOSED    the game isn't open

   But for LZK_DONE the session is as before. */
uint32_t lzk_start(lzk_game *game, size_t level, lzk_session *session);

/* Gives keys to a session, which come after those that it has. They are played when a call asks where they lead. Looks play each of them
   once. An arrow of three bytes may come in parts.

   LZK_DONE    the session has the keys
   LZK_MEMORY  out of memory: the session is as before, and the same keys may be given again
   LZK_CLOSED  the session isn't open, and nothing is done */
uint32_t lzk_keys(lzk_session *session, const uint8_t *keys, size_t keys_length);

/* Tells where a session is: where its keys lead. The session stays as it is. The place is written anew, whatever stood there.

   `cells` has room for `room` numbers. What stands in the cells of the level is written to its front: width * height * layers numbers.
   The cells come column by column from the left, each column from the top, and of each cell its layers, the lowest first. A number is
   that of an object, from 0 in the order of OBJECTS, or LZK_NOTHING. In no level no number is written. The numbers after those that
   are written stay as they were.

   LZK_DONE     place and cells are told
   LZK_NO_ROOM  the place is told, and with it how much room the cells want; they stay as they were
   LZK_MEMORY   out of memory: the cells are as before
   LZK_CLOSED   the session isn't open: the cells are as before */
uint32_t lzk_look(lzk_session *session, uint32_t *cells, size_t room, lzk_place *place);

/* Where the numbers of a cell begin among those that a look at this place has told: place->layers of them. The cell is in the level. */
static inline const uint32_t *lzk_cell(const uint32_t *cells, const lzk_place *place, uint32_t column, uint32_t row) {
    return cells + ((size_t)column * place->height + row) * place->layers;
}

/* Writes what a session has written since its start, from the byte `from` on, to the front of `output`. That is its opening, and then what
   each of its keys writes, as `ps_play GAME --level LEVEL < KEYS` writes it before the keys end. So a caller that asks after each key
   from where it was before learns what that key writes. The session stays as it is. The length is written anew, whatever stood there.

   LZK_DONE     `length` bytes are written, and those after them stay as they were; from the end on, none
   LZK_NO_ROOM  there are `length` bytes to write, which is more than `room`: the output is as before
   LZK_MEMORY   out of memory: the output is as before
   LZK_CLOSED   the session isn't open: the output is as before */
uint32_t lzk_text(lzk_session *session, size_t from, uint8_t *output, size_t room, size_t *length);

/* Copies a session. From then on each of the two goes its own way.

   LZK_DONE    the copy is open, and is where the session is; one that was open at that place is ended
   LZK_MEMORY  out of memory: the copy is as before
   LZK_CLOSED  the session isn't open: the copy is as before */
uint32_t lzk_copy(lzk_session *session, lzk_session *copy);

/* Ends a session: it is closed, and its memory is free. A session that isn't open stays so. */
void lzk_end(lzk_session *session);

#ifdef __cplusplus
}
#endif

#endif
