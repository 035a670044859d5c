// certify CIRCUIT CERTIFICATE in plain C, a measure for the proved program of that name: the same algorithm and the same bytes. The file
// must be a circuit within the limits: nothing is checked. The C library's functions are declared here, since the kit has no headers.
typedef unsigned char u8;
typedef unsigned short u16;
typedef unsigned long u64;

enum { FILE_BYTES = 16384, VARIABLES = 1000, LATCHES = 10, INPUTS = 13, STATES = 1024, PLACES = 32768, LANES = 64, WORDS = 2048 };

int open(const char *, int, ...), close(int), rename(const char *, const char *), getpid(void);
int printf(const char *, ...), snprintf(char *, u64, const char *, ...), strncmp(const char *, const char *, u64);
long read(int, void *, u64), write(int, const void *, u64);
void *memcpy(void *, const void *, u64);

static char file[FILE_BYTES + 1];
static int length, inputs, latches, gates, uncontrollable, controllable, states, readings, controls;
static u16 next[LATCHES], output, operands[2 * VARIABLES]; // literals of the net
static u8 is_controllable[INPUTS];

static u16 ranks[STATES], at[PLACES], leads[PLACES]; // at: one more than the least control not yet failed, or 0
static u8 attacks[STATES], held[PLACES];             // held: one more than the block, of a slot's, whose planes are there
static u64 words[WORDS], planes[PLACES][LATCHES + 1];
static u8 certificate[65536];
static int end;

// The circuit.

static int number(char **at) {
    int n = 0;
    while (**at < '0' || '9' < **at) ++*at;
    while ('0' <= **at && **at <= '9') n = 10 * n + *(*at)++ - '0';
    return n;
}

// The net: literals are renumbered. 0 and 1; then the bits of a move, lowest first (controls, readings, state); then the gates in turn.
static void read_circuit(const char *name) {
    static u16 input[INPUTS], names[VARIABLES + 1];
    int fd = open(name, 0);
    length = read(fd, file, FILE_BYTES);
    close(fd);
    char *at = file, *lines;
    number(&at), inputs = number(&at), latches = number(&at), number(&at), gates = number(&at);
    for (int i = 0; i < inputs; i++) input[i] = number(&at) / 2;
    lines = at;
    for (int i = 0; i < 2 * latches + 1 + 3 * gates; i++) number(&at);
    while (*at++ != '\n') {}
    while (*at && *at != 'c') {
        char sort = *at;
        int place = number(&at);
        if (sort == 'i' && strncmp(at + 1, "controllable_", 13) == 0) is_controllable[place] = 1;
        while (*at++ != '\n') {}
    }
    for (int i = 0; i < inputs; i++) controllable += is_controllable[i];
    uncontrollable = inputs - controllable;
    states = 1 << latches, readings = 1 << uncontrollable, controls = 1 << controllable;
    int c = 1, r = 1 + controllable, v = 1 + inputs;
    for (int i = 0; i < inputs; i++) names[input[i]] = is_controllable[i] ? c++ : r++;
    at = lines;
    for (int i = 0; i < latches; i++) names[number(&at) / 2] = v++, next[i] = number(&at);
    output = number(&at);
    for (int i = 0; i < gates; i++) {
        int own = number(&at) / 2;
        for (int j = 0; j < 2; j++) {
            int literal = number(&at);
            operands[2 * i + j] = 2 * names[literal / 2] + literal % 2;
        }
        names[own] = v++;
    }
    output = 2 * names[output / 2] + output % 2;
    for (int i = 0; i < latches; i++) next[i] = 2 * names[next[i] / 2] + next[i] % 2;
}

// The steps of a block: 64 moves in turn.

static void set(int variable, u64 word) { words[2 * variable] = word, words[2 * variable + 1] = ~word; }

static void evaluate(int block, u64 *plane) {
    static const u64 own[] = {0xaaaaaaaaaaaaaaaa, 0xcccccccccccccccc, 0xf0f0f0f0f0f0f0f0,
                              0xff00ff00ff00ff00, 0xffff0000ffff0000, 0xffffffff00000000};
    int v = 1;
    set(0, 0);
    for (int i = 0; i < inputs + latches; i++) set(v++, i < 6 ? own[i] : -(u64)(block >> (i - 6) & 1));
    for (int i = 0; i < gates; i++) set(v++, words[operands[2 * i]] & words[operands[2 * i + 1]]);
    for (int i = 0; i < latches; i++) plane[i] = words[next[i]];
    plane[LATCHES] = ~words[output];
}

// The game.

static int unranked(int state, int bound) { return ranks[state] == 0 || bound < ranks[state]; }

static int state_in(const u64 *plane, int lane) {
    int state = 0;
    for (int i = 0; i < latches; i++) state |= (plane[i] >> lane & 1) << i;
    return state;
}

// Goes on from a control to the first that leads, without an error, to a state that isn't of rank 1 to the bound. Whether there is one.
// Each block is evaluated once: its planes stay until the search is behind it.
static int look_on(int place, int control, int bound) {
    while (control < controls) {
        int move = place * controls + control, lane = move % LANES;
        int slot = controllable < 6 ? move / LANES : place, block = controllable < 6 ? 0 : control / LANES;
        if (held[slot] != block + 1) evaluate(move / LANES, planes[slot]), held[slot] = block + 1;
        int last = controls - control < LANES - lane ? controls - control : LANES - lane;
        for (u64 open = planes[slot][LATCHES] >> lane; open; open &= open - 1) {
            int j = __builtin_ctzl(open);
            if (j >= last) break;
            int state = state_in(planes[slot], lane + j);
            if (unranked(state, bound)) return at[place] = control + j + 1, leads[place] = state, 1;
        }
        control += last;
    }
    return 0;
}

// The first reading under which no control keeps, or as many as there are.
static int defeat(int state, int bound) {
    for (int r = 0, i = state * readings; r < readings; r++, i++)
        if (!(at[i] && unranked(leads[i], bound)) && !look_on(i, at[i], bound)) return r;
    return readings;
}

// A rank given in round k + 1 lies above the bound k, so one table serves both rounds.
static void solve(void) {
    for (int k = 0, changed = 1; changed; k++) {
        changed = 0;
        for (int s = 0; s < states; s++) {
            int r = ranks[s] ? readings : defeat(s, k);
            if (r < readings) ranks[s] = k + 1, attacks[s] = r, changed = 1;
        }
    }
}

// The certificate.

static void put(u64 n, int bytes) {
    for (; bytes--; n >>= 8) certificate[end++] = n;
}

static void put_head(int kind, int bytes) { put(bytes, 4), put(kind, 2); }

static void put_certificate(void) {
    put_head(1, length);
    memcpy(certificate + end, file, length), end += length;
    if (ranks[0]) {
        put_head(4, 3 * states);
        for (int s = 0; s < states; s++) put(ranks[s], 2), put(attacks[s], 1);
        return;
    }
    int bytes = (states + 7) / 8;
    put_head(2, bytes);
    for (int s = 0; s < states; s++) certificate[end + s / 8] |= (ranks[s] == 0) << s % 8;
    end += bytes;
    put_head(3, states * readings);
    for (int i = 0; i < states * readings; i++) put(ranks[i / readings] ? 0 : at[i] - 1, 1);
}

int main(int count, char **names) {
    char temporary[4096];
    if (count != 3) return 1;
    read_circuit(names[1]);
    solve();
    put_certificate();
    snprintf(temporary, sizeof temporary, "%s.%d", names[2], getpid());
    int fd = open(temporary, 01101, 0644); // to write, new, emptied
    if (write(fd, certificate, end) != end || close(fd) || rename(temporary, names[2])) return 1;
    printf("%s %d\n", ranks[0] ? "unrealizable" : "realizable", end);
    return 0;
}
