/* What answers are called, and why settings were refused. */
#include "within.h"

static const struct {
    hind_code code;
    const char *name, *text;
} answers[] = {
    {HIND_OK, "HIND_OK", "done"},
    {HIND_NOTHING, "HIND_NOTHING", "there is nothing to do or to take now"},
    {HIND_HELD, "HIND_HELD", "the message was taken, and is not to be acknowledged yet"},
    {HIND_INVALID, "HIND_INVALID", "an argument is NULL, out of its range or not what it should be"},
    {HIND_NOMEM, "HIND_NOMEM", "memory was refused"},
    {HIND_BUSY, "HIND_BUSY", "the client is inside another call"},
    {HIND_FORKED, "HIND_FORKED", "the handle was opened before a fork, in the parent"},
    {HIND_OPEN, "HIND_OPEN", "the client has an open trace"},
    {HIND_NOTRACE, "HIND_NOTRACE", "the client has no open trace"},
    {HIND_TOOLONG, "HIND_TOOLONG", "a payload or a text is longer than it may be"},
    {HIND_FULL, "HIND_FULL", "too much waits; call again after a pass"},
    {HIND_MANY, "HIND_MANY", "all clients of the settings, or all pool files of a process, are in use"},
    {HIND_UNDECLARED, "HIND_UNDECLARED", "the settings have no node, trigger id or autotrigger of this number"},
    {HIND_SETTINGS, "HIND_SETTINGS", "the settings are refused; hind_settings_error says where and why"},
    {HIND_REFUSED, "HIND_REFUSED", "the bytes are no message that is taken here"},
    {HIND_ABI_WRONG, "HIND_ABI_WRONG", "the header is of another ABI than the library"},
    {HIND_SYSTEM, "HIND_SYSTEM", "a call of the system failed"},
    {HIND_SPENT, "HIND_SPENT", "the numbers of this trace or client have come to their end"},
    {HIND_CLOSED, "HIND_CLOSED", "the node or the client was closed"},
    {HIND_TAKEN, "HIND_TAKEN", "another process has this name or this pool file"},
    {HIND_AWAY, "HIND_AWAY", "the broker is not there, or does not answer as it should"},
    {HIND_DRY, "HIND_DRY", "no buffer was free, so the record is lost"},
};

static const char *found(hind_code code, int is_name) {
    for (size_t i = 0; i < sizeof answers / sizeof *answers; i++)
        if (answers[i].code == code) return is_name ? answers[i].name : answers[i].text;
    return "unknown code";
}

const char *hind_strerror(hind_code code) { return found(code, 0); }
const char *hind_errname(hind_code code) { return found(code, 1); }

#define TEXT_OF(number) #number
#define VERSION(major, minor, patch) TEXT_OF(major) "." TEXT_OF(minor) "." TEXT_OF(patch)

uint32_t hind_version(void) { return HIND_VERSION_NUMBER; }
const char *hind_version_string(void) { return VERSION(HIND_VERSION_MAJOR, HIND_VERSION_MINOR, HIND_VERSION_PATCH); }

hind_code hindlib_code(uint32_t answer) {
    static const hind_code codes[] = {
        [HINDCORE_DONE] = HIND_OK,           [HINDCORE_VACANT] = HIND_CLOSED,     [HINDCORE_BUSY] = HIND_BUSY,          [HINDCORE_MEMORY] = HIND_NOMEM,
        [HINDCORE_SETTINGS] = HIND_SETTINGS, [HINDCORE_UNFIT] = HIND_UNDECLARED,  [HINDCORE_NO_TRACE] = HIND_NOTRACE,   [HINDCORE_OPEN] = HIND_OPEN,
        [HINDCORE_TOO_WIDE] = HIND_TOOLONG,  [HINDCORE_FULL] = HIND_FULL,         [HINDCORE_UNKNOWN] = HIND_UNDECLARED, [HINDCORE_SPENT] = HIND_SPENT,
        [HINDCORE_NOTHING] = HIND_NOTHING,   [HINDCORE_NO_MESSAGE] = HIND_REFUSED, [HINDCORE_SHORT] = HIND_TOOLONG,     [HINDCORE_HELD] = HIND_HELD,
        [HINDCORE_DRY] = HIND_DRY,           [HINDCORE_TORN] = HIND_INVALID,
    };
    return answer < sizeof codes / sizeof *codes ? codes[answer] : HIND_INVALID;
}

/* ---- refused settings */

static __thread hindcore_fault fault;

void hindlib_note_fault(const hindcore_fault *of) { fault = *of; }

const char *hind_settings_error(uint32_t *line) {
    static const char *const reasons[] = {
        "",
        "the text ends without a newline in this line",
        "the line has a byte outside 32 to 126",
        "a space stands at either end of the line, or two in a row",
        "the line begins with a word that is no setting, or its autotrigger is of no kind",
        "the setting stands twice",
        "the line has too few or too many words",
        "something else stands in place of a number",
        "a number is below or above what it may be",
        "trigger ids do not rise, or autotriggers are not numbered from 0 on",
        "an autotrigger fires a trigger id that no line above declares",
        "threshold, pins and clients together leave no buffer",
    };
    if (line) *line = (uint32_t)fault.line;
    return fault.reason < sizeof reasons / sizeof *reasons ? reasons[fault.reason] : "the settings are refused";
}
