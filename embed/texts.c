// texts.c: what the statuses of nrbpf.h say.
#include "nrbpf.h"
#include <inttypes.h>
#include <stdio.h>

struct text {
    nrbpf_status status;
    const char *says;
};

static const struct text texts[] = {
    {NRBPF_OK, "done"},
    {NRBPF_BUSY, "another session was in the way, and nothing is asked: call again"},
    {NRBPF_POSTED, "the update is posted and not yet answered: poll"},
    {NRBPF_C1, "C1: no line of a manifest within its limits, or its program file is missing"},
    {NRBPF_C2, "C2: the program file holds something else than pairs of hexadecimal digits"},
    {NRBPF_C3, "C3: the bytes of the program file are no program"},
    {NRBPF_C4, "C4: the program is not accepted"},
    {NRBPF_C5, "C5: more than 16 maps or 256 programs, or more bytes of maps than `limits` allow"},
    {NRBPF_C6, "C6: no memory to load the programs"},
    {NRBPF_E0, "E0: no memory for the dump, or to load it"},
    {NRBPF_E1, "E1: no line of a dump within its limits"},
    {NRBPF_E2, "E2: the manifest has no such map"},
    {NRBPF_E3, "E3: the key has another length than the map's, or is past its entries"},
    {NRBPF_E4, "E4: the value has another length than the map's"},
    {NRBPF_E5, "E5: the line is out of order"},
    {NRBPF_E6, "E6: the value of an array's entry is zero, as it is from the start"},
    {NRBPF_E7, "E7: there are more keys than the map may have"},
    {NRBPF_E8, "E8: the program of the dump is refused"},
    {NRBPF_E9, "E9: there are more programs than places"},
    {NRBPF_O1, "O1: a number of the configuration is out of its limits: nodes 1 to 8, slots 1 to 16, window 16 to 1048576, "
               "spare to 4096, long_bytes to 16384, or a number of `limits`"},
    {NRBPF_O2, "O2: no memory for the store or the state"},
    {NRBPF_O3, "O3: the state has other maps, or more or longer programs than there is room for"},
    {NRBPF_S1, "S1: unknown program"},
    {NRBPF_S2, "S2: the argument has another length than the program's, or is longer than a place takes"},
    {NRBPF_S3, "S3: the program has another mode"},
    {NRBPF_S4, "S4: the history has all its records"},
    {NRBPF_S5, "S5: sessions are attached"},
    {NRBPF_S6, "S6: the program has over 192 bytes or its argument over 64, and more than `long_bytes`"},
    {NRBPF_S7, "S7: the bytes are no program"},
    {NRBPF_S8, "S8: the program is not accepted"},
    {NRBPF_S9, "S9: the store has no such map"},
    {NRBPF_S10, "S10: the map has no such place"},
    {NRBPF_S11, "S11: the map has no keys of this length"},
    {NRBPF_S12, "S12: the map has no values of this length"},
    {NRBPF_H1, "H1: the node has too few free sessions, or there is no such node"},
    {NRBPF_H2, "H2: the session or the lane is not attached, or the state is in a dump"},
    {NRBPF_H3, "H3: an update is posted on this session or lane and not answered"},
    {NRBPF_H4, "H4: a text is not UTF-8"},
    {NRBPF_H5, "H5: no such mode, a list that is too long, or a lane of no or more than 16 slots"},
    {NRBPF_H6, "H6: the session is of another store"},
    {NRBPF_H7, "H7: a pointer is null"},
    {NRBPF_H8, "H8: the host was compiled with another version of nrbpf.h"},
    {NRBPF_H9, "H9: the state has other maps, another number of places or other `long_bytes` than the store"},
    {NRBPF_H10, "H10: the writer had enough"},
    {NRBPF_H11, "H11: no update is posted on this session or lane"},
    {NRBPF_REFUSAL('D', 0), "D0: no memory"},
    {NRBPF_REFUSAL('D', 1), "D1: the number of bytes is not a multiple of 8"},
    {NRBPF_REFUSAL('D', 2), "D2: there are no bytes"},
    {NRBPF_REFUSAL('D', 3), "D3: there are more than 4096 slots"},
    {NRBPF_REFUSAL('D', 4), "D4: the opcode is unknown"},
    {NRBPF_REFUSAL('D', 5), "D5: a register number is above 10"},
    {NRBPF_REFUSAL('D', 6), "D6: a field has a value that is not defined"},
    {NRBPF_REFUSAL('D', 7), "D7: an unused field is not zero"},
    {NRBPF_REFUSAL('D', 8), "D8: a wide instruction has no second slot"},
    {NRBPF_REFUSAL('D', 9), "D9: a field of a second slot is not zero"},
    {NRBPF_REFUSAL('V', 0), "V0: no memory"},
    {NRBPF_REFUSAL('V', 1), "V1: the jump leads outside the program"},
    {NRBPF_REFUSAL('V', 2), "V2: the jump does not lead forward"},
    {NRBPF_REFUSAL('V', 3), "V3: the jump leads into the second half of a wide instruction"},
    {NRBPF_REFUSAL('V', 4), "V4: the program runs off its end"},
    {NRBPF_REFUSAL('V', 5), "V5: the instruction is never reached"},
    {NRBPF_REFUSAL('V', 6), "V6: a register is read that has no readable value on every way here"},
    {NRBPF_REFUSAL('V', 7), "V7: R10 is written, which is read-only"},
    {NRBPF_REFUSAL('V', 8), "V8: the operation is not defined on these kinds of value"},
    {NRBPF_REFUSAL('V', 9), "V9: the moved pointer leaves its region"},
    {NRBPF_REFUSAL('V', 10), "V10: the access lies outside its region"},
    {NRBPF_REFUSAL('V', 11), "V11: a byte of the stack is read that was not written on every way here"},
    {NRBPF_REFUSAL('V', 12), "V12: the argument is written, which is read-only"},
    {NRBPF_REFUSAL('V', 13), "V13: a pointer is stored where it does not fill a cell of the stack"},
    {NRBPF_REFUSAL('V', 14), "V14: a looked-up value is used before it is tested for null"},
    {NRBPF_REFUSAL('V', 15), "V15: an argument of the helper has the wrong kind"},
    {NRBPF_REFUSAL('V', 16), "V16: the helper or the map is not known, or the program may not name this map"},
    {NRBPF_REFUSAL('V', 17), "V17: the reply is not a number"},
    {NRBPF_REFUSAL('V', 18), "V18: a program in Read mode changes a map"},
};

const char *nrbpf_status_text(nrbpf_status status) {
    for (size_t i = 0; i < sizeof texts / sizeof texts[0]; i++) {
        if (texts[i].status == status) {
            return texts[i].says;
        }
    }
    return "unknown status";
}

size_t nrbpf_error_text(const nrbpf_error *why, char *text, size_t room) {
    char line[24] = "";
    char slot[24] = "";
    const char *inner = "";
    if (!why) {
        return (size_t)snprintf(text, room, "%s", nrbpf_status_text(NRBPF_H7));
    }
    if (why->line > 0) {
        snprintf(line, sizeof line, "line %" PRIu32 ": ", why->line);
    }
    if (why->inner != 0) {
        snprintf(slot, sizeof slot, ": slot %" PRIu32 ": ", why->slot);
        inner = nrbpf_status_text(why->inner);
    }
    return (size_t)snprintf(text, room, "%s%s%s%s", line, nrbpf_status_text(why->status), slot, inner);
}
