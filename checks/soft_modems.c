/* Two soft modems of class 1, each on a terminal of its own, and a telephone line in memory between them.
 *
 *   soft_modems SPEED CALLER ANSWERER
 *
 * makes the names CALLER and ANSWERER links to the terminals. The line runs SPEED times as fast as a real one. A modem
 * whose terminal nobody has open hangs up. Standard output tells what happens on the line. Standard input says what goes
 * wrong, a word on a line: `busy`, the next call finds the number busy; `cut`, both hear nothing until the call is over;
 * `deaf`, the caller hears nothing until then. The end of standard input ends all. */
#define _GNU_SOURCE
#include <errno.h>
#include <fcntl.h>
#include <inttypes.h>
#include <poll.h>
#include <stdarg.h>
#include <stdio.h>
#include <stdlib.h>
#include <string.h>
#include <termios.h>
#include <time.h>
#include <unistd.h>
#include <tiffio.h>
#include <spandsp.h>

#define STEP 160           /* samples at a time: 20 ms of 8,000 a second */
#define DELAY 4            /* steps on the line: what is heard at once is answered too early */
#define RINGING 50         /* steps until a call is answered, or the caller hears that the number is busy */
#define UNANSWERED 5000    /* steps until nobody answers */
#define CONFIRMED 0xff138c /* T.30's frame MCF as a terminal sends it: a page was received */
#define MIDST 8000         /* bytes from the caller, of which a check of the line has 2,700: a page is under way */

struct modem {
    const char *name;
    t31_state_t *state;
    int terminal, off_hook, answers, takes_data;
    uint32_t last;              /* the three bytes that came last from the terminal */
    int16_t sound[DELAY][STEP]; /* what it said last, the newest at the line's place and the oldest behind it */
};

static struct modem caller = {.name = "caller"}, answerer = {.name = "answerer"};
static int dials; /* steps since the caller dialed, or 0 */
static int fades; /* steps until a call is over: what was said before a modem hung up is still heard */
static ssize_t sent; /* bytes from the caller since the call began, or since a page was confirmed */
static int connected, busy, cut, deaf, place;

static void tell(const char *format, ...) {
    va_list values;
    va_start(values, format);
    vprintf(format, values);
    va_end(values);
    fflush(stdout);
}

static void fail(const char *what) {
    perror(what);
    exit(1);
}

static void hang_up(struct modem *modem) {
    if (modem->off_hook) {
        tell("%s hangs up\n", modem->name);
    }
    modem->off_hook = modem->answers = 0;
    if (modem == &caller) {
        dials = 0;
    }
    fades = DELAY;
}

static int control(t31_state_t *state, void *data, int op, const char *value) {
    struct modem *modem = data;
    (void)state;
    switch (op) {
    case AT_MODEM_CONTROL_CALL:
        tell("%s dials %s\n", modem->name, value);
        modem->off_hook = dials = 1;
        break;
    case AT_MODEM_CONTROL_ANSWER:
        modem->off_hook = modem->answers = 1;
        break;
    case AT_MODEM_CONTROL_HANGUP:
    case AT_MODEM_CONTROL_ONHOOK:
        hang_up(modem);
        break;
    case AT_MODEM_CONTROL_CTS:
        modem->takes_data = value != NULL;
        break;
    }
    return 0;
}

static int to_terminal(at_state_t *state, void *data, const uint8_t *bytes, size_t count) {
    struct modem *modem = data;
    (void)state;
    if (write(modem->terminal, bytes, count) != (ssize_t)count && errno != EAGAIN && errno != EIO) {
        fail("terminal");
    }
    return 0;
}

static void reset(struct modem *modem) {
    if (modem->state != NULL) {
        t31_free(modem->state);
    }
    modem->state = t31_init(NULL, to_terminal, modem, control, modem, NULL, NULL);
    if (modem->state == NULL) {
        fail("modem");
    }
    modem->takes_data = 1;
}

static void open_terminal(struct modem *modem, const char *link) {
    struct termios how;
    modem->terminal = posix_openpt(O_RDWR | O_NOCTTY | O_NONBLOCK);
    if (modem->terminal < 0 || grantpt(modem->terminal) < 0 || unlockpt(modem->terminal) < 0 ||
        tcgetattr(modem->terminal, &how) < 0) {
        fail("terminal");
    }
    cfmakeraw(&how);
    if (tcsetattr(modem->terminal, TCSANOW, &how) < 0 || symlink(ptsname(modem->terminal), link) < 0) {
        fail(link);
    }
    reset(modem);
}

/* Whether somebody has the terminal open, and hasn't set its speed to 0: then a real one drops DTR */
static int is_ready(const struct modem *modem) {
    struct pollfd state = {.fd = modem->terminal};
    struct termios how;
    poll(&state, 1, 0);
    return !(state.revents & POLLHUP) && tcgetattr(modem->terminal, &how) == 0 && cfgetospeed(&how) != B0;
}

/* Tells how far a fax is. */
static void watch(struct modem *modem, const char *bytes, ssize_t count) {
    if (modem == &caller) {
        if (sent < MIDST && sent + count >= MIDST) {
            tell("a page is under way\n");
        }
        sent += count;
        return;
    }
    for (ssize_t byte = 0; byte < count; byte++) {
        modem->last = (modem->last << 8 | (unsigned char)bytes[byte]) & 0xffffff;
        if (modem->last == CONFIRMED) {
            tell("a page is confirmed\n");
            sent = 0;
        }
    }
}

/* Takes what came on the terminal. A modem that nobody wants to use becomes as one that was just switched on. */
static void from_terminal(struct modem *modem) {
    char bytes[256];
    if (!is_ready(modem)) {
        if (modem->off_hook) {
            hang_up(modem);
            reset(modem);
        }
        tcflush(modem->terminal, TCIOFLUSH);
    } else if (modem->takes_data) {
        ssize_t count = read(modem->terminal, bytes, sizeof bytes);
        if (count > 0) {
            watch(modem, bytes, count);
            t31_at_rx(modem->state, bytes, (int)count);
        }
    }
}

static void say(struct modem *modem) {
    int count = t31_tx(modem->state, modem->sound[place], STEP);
    memset(modem->sound[place] + count, 0, (size_t)(STEP - count) * sizeof(int16_t));
}

static void hear(struct modem *modem, struct modem *other, int nothing) {
    int16_t sound[STEP] = {0};
    if (connected && !nothing) {
        memcpy(sound, other->sound[(place + 1) % DELAY], sizeof sound);
    }
    t31_rx(modem->state, sound, STEP);
}

/* What becomes of a call that isn't connected yet */
static void ring(void) {
    dials++;
    if (dials > RINGING && busy) {
        tell("the number is busy\n");
        dials = busy = 0;
        t31_call_event(caller.state, AT_CALL_EVENT_BUSY);
    } else if (dials > RINGING && answerer.answers) {
        tell("the call is connected\n");
        dials = fades = cut = deaf = answerer.answers = 0;
        connected = 1;
        sent = 0;
        memset(caller.sound, 0, sizeof caller.sound);
        memset(answerer.sound, 0, sizeof answerer.sound);
        t31_call_event(caller.state, AT_CALL_EVENT_CONNECTED);
        t31_call_event(answerer.state, AT_CALL_EVENT_ANSWERED);
    } else if (dials > UNANSWERED) {
        tell("nobody answers\n");
        dials = 0;
        t31_call_event(caller.state, AT_CALL_EVENT_NO_ANSWER);
    }
}

/* Whether standard input is still open */
static int take_words(void) {
    static char words[256];
    static size_t length;
    ssize_t count = read(STDIN_FILENO, words + length, sizeof words - length);
    if (count <= 0) {
        return count < 0 && errno == EAGAIN;
    }
    length += (size_t)count;
    for (char *end; (end = memchr(words, '\n', length)) != NULL;) {
        size_t line = (size_t)(end - words) + 1;
        *end = 0;
        tell("%s\n", words);
        busy |= strcmp(words, "busy") == 0;
        cut |= strcmp(words, "cut") == 0;
        deaf |= strcmp(words, "deaf") == 0;
        length -= line;
        memmove(words, end + 1, length);
    }
    return length < sizeof words;
}

/* Waits until the next step is due. A step that comes late isn't made up for: no modem answers faster than SPEED. */
static void wait_for_step(double speed) {
    static struct timespec due;
    struct timespec now;
    long step = (long)(1e9 * STEP / 8000 / speed);
    clock_gettime(CLOCK_MONOTONIC, &now);
    due.tv_nsec += step;
    due.tv_sec += due.tv_nsec / 1000000000;
    due.tv_nsec %= 1000000000;
    if (now.tv_sec > due.tv_sec || (now.tv_sec == due.tv_sec && now.tv_nsec > due.tv_nsec)) {
        due = now;
    }
    clock_nanosleep(CLOCK_MONOTONIC, TIMER_ABSTIME, &due, NULL);
}

int main(int count, char **words) {
    double speed = count == 4 ? atof(words[1]) : 0;
    if (speed <= 0) {
        fprintf(stderr, "usage: soft_modems SPEED CALLER ANSWERER\n");
        return 2;
    }
    open_terminal(&caller, words[2]);
    open_terminal(&answerer, words[3]);
    fcntl(STDIN_FILENO, F_SETFL, O_NONBLOCK);
    tell("ready\n");
    while (take_words()) {
        wait_for_step(speed);
        from_terminal(&caller);
        from_terminal(&answerer);
        if (dials) {
            ring();
        }
        say(&caller);
        say(&answerer);
        hear(&caller, &answerer, cut || deaf);
        hear(&answerer, &caller, cut);
        place = (place + 1) % DELAY;
        if (fades && --fades == 0) {
            connected = 0;
        }
    }
    return 0;
}
