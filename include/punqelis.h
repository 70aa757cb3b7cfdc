/*
 * Punqelis: checks, runs, previews and rewrites netlist files.
 *
 * A netlist file describes a clocked circuit of ports, registers, ROMs and gates. A ROM's table
 * is a field of tag 2, with a word for every address, or of tag 5: address bits, width, a fill
 * word and the first words; an address past the last word reads the fill word.
 * Link with target/staticlib/libpunqelis.a, which tools/staticlib builds.
 *
 * Every function answers one number, the preview four more beside it:
 *   below 65,536   accepted, and the number is a length in bytes (see each function), but 0 for a
 *                  list of runs, whose outputs can have more bytes than that;
 *   from 65,536 on refused, and the number is the refusal's number times 65,536 plus its place.
 * PUNQELIS_IS_REFUSED and the two macros after it take an answer apart.
 *
 * Words. States, inputs and outputs are lists of words of two bytes each, the high byte first:
 *   state    one word for each register and clocked ROM, in the order of their node numbers;
 *   inputs   one word for each input port, in the order of their node numbers;
 *   outputs  one word for each output port, in the order of their node numbers.
 * Their lengths must be exact. Each word must be below 2 to the power of its node's width. A list
 * of runs has such inputs and such outputs for each clock: a row, each right behind the one before.
 *
 * Memory. The caller lends the memory that is read and written; none of it is kept after a call.
 * A pointer must not be NULL, also where its length is 0. Memory that a function writes (state,
 * outputs, out, by_source) must not overlap with any other memory lent to the same call. When a
 * call is refused, no lent byte has changed. Bytes past the result are never changed.
 * There is no heap. Of the stack both rewritings, the preview and a list of runs take 87 KiB and
 * every other function at most 43 KiB, as measured with the older kit.
 *
 * Refusals, in the order in which they are looked for. 17 stands among 1 to 10: a function that is
 * said to check 1 to 10 checks it with them.
 *    1 long         the file has over 46,000 bytes                        place 0
 *    2 short        a field passes the file's end, or the end is missing  offset in the file
 *    3 tag          unknown tag, wrong order, bad head or end, or more    offset in the file
 *    4 table        bad size or length, 17th table of either tag,         offset in the file
 *                   word or fill word too wide
 *    5 node         bad kind, operation, width or length, 1,025th node,   offset in the file
 *                   reset word or constant too wide
 *    6 source       no such node or table, or an output port as source    lowest such node
 *    7 width        a width rule is broken                                lowest such node
 *    8 unread       no reader, and not a port                             lowest such node
 *   17 table unread no node reads it                                      lowest such table
 *    9 loop         a loop of gates and asynchronous ROMs                 lowest node on one
 *   10 ring         a ring of registers alone                             lowest node on one
 *   11 closed debt  a loop with more asynchronous ROMs than registers     place 65,535
 *   12 port debt    an input port's words would be needed too early       lowest such port
 *   13 grown        the rewritten netlist has over 1,024 nodes            place 65,535
 *   14 out          the output is shorter than the rewritten file;        place 65,535
 *                   of the preview: by_source is too short
 *   15 words        inputs or outputs do not fit the file;                place 65,535
 *                   of a list of runs: or are not exactly clocks rows
 *   16 state        the state does not fit the file                       place 65,535
 */
#ifndef PUNQELIS_H
#define PUNQELIS_H

#include <stddef.h>
#include <stdint.h>

#define PUNQELIS_IS_REFUSED(answer) ((answer) >= 65536u)
#define PUNQELIS_REFUSAL(answer) ((answer) / 65536u)
#define PUNQELIS_PLACE(answer) ((answer) % 65536u)

/* No file that is accepted is longer. (The limits of document 01 and of tag 5 allow 45,175.) */
#define PUNQELIS_MAX_FILE 46000

/* A list of registers by source has at most 1,024 numbers of two bytes. */
#define PUNQELIS_MAX_SOURCES 2048

#ifdef __cplusplus
extern "C" {
#endif

/* Checks a file (1 to 10). Answers file_len. */
uint32_t punqelis_check(const uint8_t *file, size_t file_len);

/* Fills the state with the file's reset words. Checks 1 to 10, then the state's length by 16;
 * what the state held before does not matter. Answers state_len. */
uint32_t punqelis_reset(const uint8_t *file, size_t file_len,
                        uint8_t *state, size_t state_len);

/* Runs one clock: writes the outputs and puts the next state in the state's place. Checks 1 to
 * 10, then 15 and 16. A refused run is no clock. Answers outputs_len. */
uint32_t punqelis_run(const uint8_t *file, size_t file_len,
                      uint8_t *state, size_t state_len,
                      const uint8_t *inputs, size_t inputs_len,
                      uint8_t *outputs, size_t outputs_len);

/* Runs a list of clocks in one call, which reads and checks the file once: as punqelis_run would
 * one clock after the other over the state, each with the next row of the inputs and of the
 * outputs. A row has two bytes for each input port, or for each output port; with no such ports it
 * has none. Checks 1 to 10, then by 15 whether the inputs are exactly clocks rows of words that fit
 * and the outputs exactly clocks rows, then the state by 16. All or nothing: a refused list is no
 * clock at all, and has changed neither the state nor the outputs. Answers 0.
 * clocks may be 0: the inputs and outputs must then be empty, and a state that fits stays.
 * A call takes time in proportion to clocks. Of a netlist with no ports at all every number of
 * clocks is accepted, since no row tells otherwise, and takes its time. */
uint32_t punqelis_run_list(const uint8_t *file, size_t file_len,
                           uint8_t *state, size_t state_len,
                           const uint8_t *inputs, size_t inputs_len,
                           uint8_t *outputs, size_t outputs_len,
                           size_t clocks);

/* Rewrites a file: writes to out a file whose ROMs are all clocked and which gives the same
 * outputs from the first clock after reset on. Checks 1 to 10, then 11 to 14. Answers the new
 * file's length, which can be more or less than file_len; the bytes of out behind it stay.
 * out must not overlap with the file. PUNQELIS_MAX_FILE bytes are always enough for it, since
 * no rewritten file has over 45,175. The new file passes punqelis_check and has as many input
 * and output ports, in the same order. Its tables are the old file's, field by field and byte
 * by byte. Its state has a length of its own: two bytes for each of its nodes of kind 2
 * (register) and 4 (clocked ROM). */
uint32_t punqelis_rewrite(const uint8_t *file, size_t file_len,
                          uint8_t *out, size_t out_len);

/* Rewrites a file by the late start: like punqelis_rewrite, and with answers of the same kind, but
 * nodes may run late as well as early, as long as registers stand between them and the output
 * ports. Choose punqelis_rewrite where it accepts the file; choose the late start where 12 comes
 * from it because a ROM stands straight behind a sensor's port, with a gate before the register.
 * What is said there of out and of the new file holds here too. On a wire whose words come late the
 * new file shows the old reset words by choose gates: for each of them it has a constant and a gate
 * more, and once a chain of one-bit registers, filled with 1 from a constant, that steers the
 * gates. These nodes stand behind all others. Nodes from which no output port can be reached are
 * left out, ports excepted, and with them the tables that no other node reads. The other tables
 * stay in their order, byte by byte, and are numbered anew.
 * 11 counts only loops that can reach an output port, 12 only walks from an input port to an
 * output port. 13 counts the added nodes, so that it can come here where punqelis_rewrite accepts
 * the file; 11 and 12 cannot. The preview is of punqelis_rewrite alone. */
uint32_t punqelis_rewrite_late(const uint8_t *file, size_t file_len,
                               uint8_t *out, size_t out_len);

/* How large a rewritten file is. Beside a refusal the numbers after answer are 0. */
struct punqelis_size {
    uint32_t answer;       /* the rewritten file's length, or the refusal */
    uint32_t clocked_roms; /* its nodes of kind 4 */
    uint32_t registers;    /* its nodes of kind 2; a clocked ROM's own register is none */
    uint32_t largest_lead; /* how many clocks early a node of it runs, at most */
    uint32_t sources;      /* its nodes that are no registers: how many numbers by_source has */
};

/* Previews a rewriting: what punqelis_rewrite would answer for the file into an output that is
 * long enough, and how many memories and registers the new file would have. An output of answer
 * bytes is just enough for punqelis_rewrite.
 * Writes to by_source, for each node of the new file that is no register, in the order of their
 * node numbers, how many registers stand on the wires that come from it: those that read it,
 * those that read these, and so on. A number has two bytes, the high byte first; there are
 * sources of them, and their sum is registers. In the new file all registers come last, so the
 * numbers are those of the nodes 0, 1, and so on. The bytes behind them stay. by_source must not
 * overlap with the file. 2,048 bytes (PUNQELIS_MAX_SOURCES) are always enough for it.
 * Checks 1 to 10, then 11 to 13, then by 14 whether by_source has two bytes for each number.
 * It takes about as long as rewriting. */
struct punqelis_size punqelis_preview(const uint8_t *file, size_t file_len,
                                      uint8_t *by_source, size_t by_source_len);

#ifdef __cplusplus
}
#endif

#endif
