// A static session, played by a running JACK server: the part of beside-jack.sh that speaks libjack.
//
//   beside-jack SESSION CAPTURE PLAYBACK
//
// Each client of the session is a client of JACK, and each call of the session is the call of libjack of that name, made in the
// order of the session. Two clients more stand for the sound card: "system in" has an output for each channel of the capture, and
// "system out" an input for each channel of the playback. No session can name them, since a session's names have no space.
// The report goes to standard output, in the form of docs/FORMATS.md, section 8.
//
// Served: `open` of the kinds pass, gain, mix, delay and meter; `register` of audio ports, `activate`, `deactivate`, `connect`,
// `disconnect`; and one `run` behind them. All other lines are refused, and so is every call that JACK refuses, but for a
// connection that is there already.
//
// Samples are floats, 1.0 for 2^31. Nothing is rounded as long as each sample, sum and product has at most 24 bits: a float has
// as many. A sample that is no number of the playback's bits is told on standard error.
#include <errno.h>
#include <jack/jack.h>
#include <math.h>
#include <semaphore.h>
#include <stdarg.h>
#include <stdatomic.h>
#include <stdint.h>
#include <stdio.h>
#include <stdlib.h>
#include <string.h>
#include <time.h>

enum { PORTS = 16, CLIENTS = 40, CALLS = 4096 };
enum kind { PASS, GAIN, MIX, DELAY, METER, IN, OUT };

struct client {
    char name[33];
    enum kind kind;
    long number, shift;
    jack_client_t *jack;
    jack_port_t *in[PORTS], *out[PORTS], *turn;
    atomic_int ins, outs;
    float *late[PORTS]; // of a delay: the last `number` samples of each input
    long at;
    float peak;
};

static struct client clients[CLIENTS];
static int opened;
static char replies[CALLS][48];
static int calls, accepted;

static long rate, period, channels, sides, bits, cycles, frames;
static float *captured, *played;
static unsigned char *state; // of the transport, in each cycle
static atomic_long cycle;    // how many cycles began since the capture is let go
static atomic_int let_go, freewheels;
static sem_t done;

static void stop(const char *form, ...)
{
    va_list words;
    va_start(words, form);
    fprintf(stderr, "beside-jack: ");
    vfprintf(stderr, form, words);
    fprintf(stderr, "\n");
    exit(1);
}

static void pause_ms(int count)
{
    nanosleep(&(struct timespec){0, count * 1000000L}, NULL);
}

// What JACK says is told once it has answered.
static void on_error(const char *text)
{
    if (opened > 1)
        fprintf(stderr, "JACK: %s\n", text);
}

// --- what a client plays ---

// Input j is x[j], null where there is none: silence. Output j is y[j].
static void play_delay(struct client *it, const float **x, float **y, jack_nframes_t n)
{
    long places = it->number + 1;
    for (int j = 0; j < PORTS; j++)
        for (jack_nframes_t i = 0; i < n; i++) {
            it->late[j][(it->at + i) % places] = x[j] ? x[j][i] : 0;
            if (y[j])
                y[j][i] = it->late[j][(it->at + i + 1) % places];
        }
    it->at = (it->at + n) % places;
}

// A frame past the end of the capture is silent, and so is one before it is let go.
static void play_in(float **y, jack_nframes_t n)
{
    long now = let_go ? ++cycle : 0;
    for (int c = 0; c < channels; c++)
        for (jack_nframes_t i = 0; i < n; i++) {
            long frame = (now - 1) * period + i;
            y[c][i] = now >= 1 && now <= cycles && frame < frames ? captured[frame * channels + c] : 0;
        }
    memset(y[channels], 0, n * sizeof(float));
    if (now == cycles + 1)
        sem_post(&done);
}

static void play_out(struct client *it, const float **x, jack_nframes_t n)
{
    long now = cycle;
    if (now < 1 || now > cycles)
        return;
    for (int c = 0; c < sides; c++)
        for (jack_nframes_t i = 0; i < n; i++)
            played[((now - 1) * period + i) * sides + c] = x[c][i];
    state[now - 1] = jack_transport_query(it->jack, NULL);
}

// A connection of a client with itself gives the last cycle only if the input is asked for before the output is written.
static int process(jack_nframes_t n, void *argument)
{
    struct client *it = argument;
    float factor = it->kind == GAIN ? ldexpf(it->number, -it->shift) : 1;
    const float *x[PORTS] = {0};
    float *y[PORTS] = {0};
    int ins = it->ins, outs = it->outs;
    for (int j = 0; j < ins; j++)
        x[j] = jack_port_get_buffer(it->in[j], n);
    for (int j = 0; j < outs; j++)
        y[j] = jack_port_get_buffer(it->out[j], n);
    if (it->kind == DELAY)
        play_delay(it, x, y, n);
    else if (it->kind == IN)
        play_in(y, n);
    else if (it->kind == OUT)
        play_out(it, x, n);
    else
        for (int j = 0; j < outs; j++)
            for (jack_nframes_t i = 0; i < n; i++) {
                float sum = 0;
                for (int k = 0; k < ins; k++)
                    if (it->kind == MIX || (k == j && it->kind != METER))
                        sum += x[k][i] * factor;
                y[j][i] = sum;
            }
    // Behind the last cycle a delay still gives what it has.
    for (int j = 0; it->kind == METER && cycle >= 1 && cycle <= cycles && j < ins; j++)
        for (jack_nframes_t i = 0; i < n; i++)
            it->peak = fmaxf(it->peak, fabsf(x[j][i]));
    return 0;
}

static void on_freewheel(int starts, void *argument)
{
    (void)argument;
    freewheels = starts;
}

static void on_shutdown(void *argument)
{
    (void)argument;
    _Exit(1);
}

// --- calls ---

static struct client *open_client(const char *name, enum kind kind, long number, long shift)
{
    if (opened == CLIENTS)
        stop("more than %d clients", CLIENTS - 2);
    struct client *it = &clients[opened++];
    snprintf(it->name, sizeof it->name, "%s", name);
    it->kind = kind;
    it->number = number;
    it->shift = shift;
    for (int j = 0; kind == DELAY && j < PORTS; j++)
        it->late[j] = calloc(number + 1, sizeof(float));
    // The server may have been started just now: the first client tries for ten seconds.
    jack_status_t status;
    for (int tries = opened == 1 ? 500 : 1; !it->jack && tries--;) {
        pause_ms(20);
        it->jack = jack_client_open(name, JackNoStartServer | JackUseExactName, &status);
    }
    if (!it->jack)
        stop("JACK opens no client %s: status 0x%x", name, status);
    jack_set_process_callback(it->jack, process, it);
    jack_on_shutdown(it->jack, on_shutdown, NULL);
    return it;
}

static void register_port(struct client *it, const char *name, int out)
{
    atomic_int *count = out ? &it->outs : &it->ins;
    jack_port_t **ports = out ? it->out : it->in;
    if (*count == PORTS)
        stop("more than %d ports of %s", PORTS, it->name);
    ports[*count] = jack_port_register(it->jack, name, JACK_DEFAULT_AUDIO_TYPE, out ? JackPortIsOutput : JackPortIsInput, 0);
    if (!ports[*count])
        stop("JACK registers no port %s:%s", it->name, name);
    ++*count;
}

// Activates a client. A connection of silence puts its cycle behind that of "system in", whatever the session connects, so that
// all clients agree on which cycle it is. It closes no loop, since "system in" has no input.
static int activate(struct client *it)
{
    if (jack_activate(it->jack))
        return -1;
    if (it->kind == IN)
        return 0;
    if (!it->turn)
        it->turn = jack_port_register(it->jack, "its turn", JACK_DEFAULT_AUDIO_TYPE, JackPortIsInput, 0);
    return it->turn ? jack_connect(clients[0].jack, "system in:turn", jack_port_name(it->turn)) : -1;
}

static struct client *client_of(const char *name)
{
    size_t length = strcspn(name, ":");
    for (int i = opened; i-- > 0;)
        if (strlen(clients[i].name) == length && !strncmp(clients[i].name, name, length))
            return &clients[i];
    stop("no client %s", name);
    return NULL;
}

// What JACK calls a port of the session.
static const char *port_of(const char *name, char *room)
{
    const char *rest = strchr(name, ':');
    if (!strncmp(name, "system:", 7))
        sprintf(room, "system %s%s", !strncmp(rest, ":capture_", 9) ? "in" : "out", rest);
    else
        strcpy(room, name);
    return room;
}

// One `do` line, whose words these are: the first is `do`.
static void call(long line, int count, char **word)
{
    char a[160], b[160];
    const char *verb = count > 1 ? word[1] : "";
    int answer = -1;
    if (calls == CALLS)
        stop("more than %d calls", CALLS);
    if (!strcmp(verb, "open") && count >= 4) {
        static const char *kinds[] = {"pass", "gain", "mix", "delay", "meter"};
        static const int numbers[] = {0, 2, 0, 1, 0};
        for (int kind = PASS; kind <= METER; kind++)
            if (!strcmp(word[3], kinds[kind]) && count == 4 + numbers[kind]) {
                open_client(word[2], kind, count > 4 ? atol(word[4]) : 0, count > 5 ? atol(word[5]) : 0);
                answer = 0;
            }
    } else if (!strcmp(verb, "register") && count == 5 && !strcmp(word[4], "audio") && strchr(word[2], ':')) {
        register_port(client_of(word[2]), strchr(word[2], ':') + 1, !strcmp(word[3], "out"));
        answer = 0;
    } else if (!strcmp(verb, "activate") && count == 3) {
        answer = activate(client_of(word[2])) ? -1 : 0;
    } else if (!strcmp(verb, "deactivate") && count == 3) {
        answer = jack_deactivate(client_of(word[2])->jack);
    } else if (!strcmp(verb, "connect") && count == 4) {
        answer = jack_connect(clients[0].jack, port_of(word[2], a), port_of(word[3], b));
    } else if (!strcmp(verb, "disconnect") && count == 4) {
        answer = jack_disconnect(clients[0].jack, port_of(word[2], a), port_of(word[3], b));
    }
    calls++;
    if (answer == EEXIST)
        sprintf(replies[calls - 1], "call 0 %d refused 16 Exists", calls);
    else if (answer)
        stop("line %ld: refused by JACK, or not played beside it", line);
    else
        sprintf(replies[calls - 1], "call 0 %d ok %d", calls, ++accepted);
}

// --- files ---

static unsigned long little(const unsigned char *from, int bytes)
{
    unsigned long number = 0;
    while (bytes--)
        number = number << 8 | from[bytes];
    return number;
}

static void put(FILE *file, unsigned long number, int bytes)
{
    for (; bytes--; number >>= 8)
        fputc(number & 255, file);
}

// A WAVE file of 16 or 24 bits whose samples begin behind the header of 44 bytes.
static void read_capture(const char *path)
{
    FILE *file = fopen(path, "rb");
    unsigned char head[44], sample[3];
    if (!file || fread(head, 44, 1, file) != 1 || memcmp(head, "RIFF", 4) || memcmp(head + 12, "fmt ", 4) || memcmp(head + 36, "data", 4))
        stop("%s: no WAVE file with a header of 44 bytes", path);
    int size = head[34] / 8;
    if (little(head + 20, 2) != 1 || (size != 2 && size != 3) || head[22] != channels || (long)little(head + 24, 4) != rate)
        stop("%s: not of 16 or 24 bits, or not of the session's channels and rate", path);
    long most = cycles * period * channels, count = 0;
    captured = calloc(most, sizeof *captured);
    while (count < most && fread(sample, size, 1, file) == 1)
        captured[count++] = ldexpf((int32_t)(little(sample, size) << (32 - 8 * size)), -31);
    frames = count / channels;
    fclose(file);
}

static void write_playback(const char *path)
{
    FILE *file = fopen(path, "wb");
    long count = cycles * period * sides, size = bits / 8, inexact = 0;
    if (!file)
        stop("%s: can't be made", path);
    fwrite("RIFF", 4, 1, file);
    put(file, 36 + count * size, 4);
    fwrite("WAVEfmt ", 8, 1, file);
    put(file, 16, 4);
    put(file, 1, 2);
    put(file, sides, 2);
    put(file, rate, 4);
    put(file, rate * sides * size, 4);
    put(file, sides * size, 2);
    put(file, bits, 2);
    fwrite("data", 4, 1, file);
    put(file, count * size, 4);
    for (long i = 0; i < count; i++) {
        double number = ldexp(played[i], bits - 1), most = ldexp(1, bits - 1);
        inexact += number != floor(number) || number < -most || number >= most;
        put(file, (unsigned long)(long)fmax(-most, fmin(most - 1, floor(number))), size);
    }
    if (fclose(file))
        stop("%s: can't be written", path);
    if (inexact)
        fprintf(stderr, "beside-jack: %ld of %ld samples are no numbers of %ld bits\n", inexact, count, bits);
}

// --- the session ---

// The header line that begins so, with as many numbers as there are places.
static int header(int count, char **word, const char *name, long *first, long *second)
{
    if (strcmp(word[0], name) || count != (second ? 3 : 2))
        return 0;
    *first = atol(word[1]);
    if (second)
        *second = atol(word[2]);
    return 1;
}

static void open_system(void)
{
    char name[32];
    struct client *in = open_client("system in", IN, 0, 0), *out = open_client("system out", OUT, 0, 0);
    for (int c = 1; c <= channels; c++) {
        sprintf(name, "capture_%d", c);
        register_port(in, name, 1);
    }
    for (int c = 1; c <= sides; c++) {
        sprintf(name, "playback_%d", c);
        register_port(out, name, 0);
    }
    register_port(in, "turn", 1);
    jack_set_freewheel_callback(in->jack, on_freewheel, NULL);
    if ((long)jack_get_sample_rate(in->jack) != rate || (long)jack_get_buffer_size(in->jack) != period)
        stop("JACK has another rate or period than the session");
    if (activate(in) || activate(out))
        stop("JACK activates no client");
}

static void read_session(const char *path)
{
    FILE *file = fopen(path, "r");
    char text[512], *word[8];
    long version;
    if (!file)
        stop("%s: can't be read", path);
    for (long line = 1; fgets(text, sizeof text, file); line++) {
        int count = 0;
        for (char *it = strtok(text, " \t\r\n"); it && count < 8; it = strtok(NULL, " \t\r\n"))
            word[count++] = it;
        if (!count || word[0][0] == '#' || header(count, word, "jackd", &version, NULL) || header(count, word, "rate", &rate, NULL)
            || header(count, word, "capture", &channels, NULL) || header(count, word, "playback", &sides, &bits)
            || !strcmp(word[0], "mode") || (!opened && header(count, word, "period", &period, NULL)))
            continue;
        if (cycles || (strcmp(word[0], "do") && strcmp(word[0], "run")) || channels < 1 || channels > 8 || sides < 1 || sides > 8
            || (bits != 16 && bits != 24))
            stop("line %ld: not played beside JACK", line);
        if (!opened)
            open_system();
        if (!header(count, word, "run", &cycles, NULL))
            call(line, count, word);
    }
    if (cycles < 1)
        stop("no cycle is run");
    fclose(file);
}

int main(int count, char **argument)
{
    if (count != 4)
        stop("SESSION CAPTURE PLAYBACK");
    sem_init(&done, 0, 0);
    jack_set_error_function(on_error);
    jack_set_info_function(on_error);
    read_session(argument[1]);
    read_capture(argument[2]);
    played = calloc(cycles * period * sides, sizeof *played);
    state = calloc(cycles, 1);

    if (jack_set_freewheel(clients[0].jack, 1))
        stop("JACK does not freewheel");
    for (int i = 0; !freewheels; i++) {
        if (i == 5000)
            stop("JACK does not freewheel");
        pause_ms(1);
    }
    let_go = 1;
    sem_wait(&done);
    jack_set_freewheel(clients[0].jack, 0);
    for (int i = opened; i-- > 0;) {
        jack_deactivate(clients[i].jack);
        jack_client_close(clients[i].jack);
    }

    write_playback(argument[3]);
    printf("report 1\n");
    for (int i = 0; i < calls; i++)
        printf("%s\n", replies[i]);
    for (long i = 0; i < cycles; i++)
        printf("cycle %ld %d %s 0 -\n", i + 1, accepted, state[i] == JackTransportStopped ? "stopped" : "rolling");
    for (int i = 0; i < opened; i++)
        if (clients[i].kind == METER)
            printf("meter %s %.0f\n", clients[i].name, ldexp(clients[i].peak, 31));
    printf("end\n");
    return fflush(stdout) != 0;
}
