/* One period of the attitude control of a small satellite: three axes, each with a median and a low pass of its gyroscope, a
 * notch filter, a proportional, integral and derivative controller with limits, a table of gains that is interpolated, and a
 * telemetry record with its checksum. All numbers are of 32 bits, with 12 bits behind the point where nothing else is said. */
#define AXES 3
#define TAPS 9
#define POINTS 8
#define RECORD 32

typedef int fixed;

struct notch {
    fixed in[2], out[2];
};

struct axis {
    fixed raw[3];
    fixed line[TAPS];
    struct notch notch;
    fixed integral;
    fixed before;
    unsigned clipped;
};

struct gains {
    fixed proportional, integral, derivative;
};

struct command {
    fixed torque[AXES];
    unsigned flags;
};

/* the coefficients of the low pass: their sum is 4,096 */
static const short low_pass[TAPS] = { 73, 248, 512, 729, 972, 729, 512, 248, 73 };

/* gains by the rate of turn: a rate, and the gains from it on */
static const fixed rates[POINTS] = { 0, 41, 102, 205, 410, 819, 1638, 4096 };
static const struct gains table[POINTS] = {
    { 8192, 205, 4096 }, { 7782, 205, 4096 }, { 7373, 184, 3686 }, { 6554, 164, 3277 },
    { 5734, 123, 2867 }, { 4915, 82, 2458 }, { 4096, 41, 2048 }, { 2048, 0, 1024 },
};

static struct axis axes[AXES];
static unsigned char record[RECORD];
static unsigned periods;

/* a product of numbers with 12 bits behind the point, rounded down */
static fixed times(fixed a, fixed b)
{
    return (a * b) >> 12;
}

static fixed limited(fixed value, fixed most)
{
    if (value > most)
        return most;
    if (value < -most)
        return -most;
    return value;
}

static fixed absolute(fixed value)
{
    return value < 0 ? -value : value;
}

/* the middle of three readings */
static fixed median(const fixed *raw)
{
    fixed a = raw[0], b = raw[1], c = raw[2];
    if (a > b) {
        fixed swap = a;
        a = b;
        b = swap;
    }
    if (b > c)
        b = c;
    return a > b ? a : b;
}

/* the last readings of one axis, with a new one in the place of the oldest */
static void take(struct axis *axis, fixed reading)
{
    axis->raw[2] = axis->raw[1];
    axis->raw[1] = axis->raw[0];
    axis->raw[0] = reading;
}

/* a low pass by nine coefficients */
__attribute__((noinline)) static fixed smoothed(struct axis *axis, fixed value)
{
    for (int tap = TAPS - 1; tap > 0; tap--)
        axis->line[tap] = axis->line[tap - 1];
    axis->line[0] = value;

    fixed sum = 0;
    for (int tap = 0; tap < TAPS; tap++)
        sum += axis->line[tap] * low_pass[tap];
    return sum >> 12;
}

/* a notch at the first bending mode of the panels */
__attribute__((noinline)) static fixed notched(struct notch *notch, fixed value)
{
    fixed result = times(3891, value) - times(7372, notch->in[0]) + times(3891, notch->in[1])
        + times(7372, notch->out[0]) - times(3686, notch->out[1]);
    notch->in[1] = notch->in[0];
    notch->in[0] = value;
    notch->out[1] = notch->out[0];
    notch->out[0] = result;
    return result;
}

/* the part of the table in which a rate lies */
static int part_of(fixed rate)
{
    int part = 0;
    for (int point = 1; point < POINTS - 1; point++)
        if (rate >= rates[point])
            part = point;
    return part;
}

/* between two numbers, by 0 to 4,096 parts of 4,096 */
static fixed between(fixed from, fixed to, fixed share)
{
    return from + times(to - from, share);
}

/* the share of a rate in its part: the quotient of two numbers, by twelve subtractions */
__attribute__((noinline)) static fixed share_in(fixed rate, int part)
{
    unsigned rest = (unsigned)(rate - rates[part]);
    unsigned width = (unsigned)(rates[part + 1] - rates[part]);
    fixed share = 0;
    for (int bit = 0; bit < 12; bit++) {
        rest <<= 1;
        share <<= 1;
        if (rest >= width) {
            rest -= width;
            share |= 1;
        }
    }
    return share;
}

/* the gains at a rate of turn */
__attribute__((noinline)) static void gains_at(fixed rate, struct gains *gains)
{
    fixed size = limited(absolute(rate), 4095);
    int part = part_of(size);
    fixed share = share_in(size, part);
    gains->proportional = between(table[part].proportional, table[part + 1].proportional, share);
    gains->integral = between(table[part].integral, table[part + 1].integral, share);
    gains->derivative = between(table[part].derivative, table[part + 1].derivative, share);
}

/* the torque of one axis */
__attribute__((noinline)) static fixed controlled(struct axis *axis, fixed wanted, fixed reading)
{
    struct gains gains;
    take(axis, reading);
    fixed rate = notched(&axis->notch, smoothed(axis, median(axis->raw)));
    gains_at(rate, &gains);

    fixed error = limited(wanted - rate, 16384);
    axis->integral = limited(axis->integral + times(error, gains.integral), 65536);
    fixed change = error - axis->before;
    axis->before = error;

    fixed torque = times(error, gains.proportional) + axis->integral + times(change, gains.derivative);
    fixed kept = limited(torque, 20480);
    axis->clipped = kept == torque ? 0 : axis->clipped + 1;
    return kept;
}

/* two bytes of the record */
static void put(int place, unsigned value)
{
    record[place] = (unsigned char)(value >> 8);
    record[place + 1] = (unsigned char)value;
}

/* the checksum of the record: sixteen bits, by the polynomial x^16 + x^12 + x^5 + 1 */
__attribute__((noinline)) static unsigned checksum(void)
{
    unsigned rest = 0xffff;
    for (int place = 0; place < RECORD - 2; place++) {
        rest ^= (unsigned)record[place] << 8;
        for (int bit = 0; bit < 8; bit++)
            rest = rest & 0x8000 ? (rest << 1 ^ 0x1021) & 0xffff : rest << 1 & 0xffff;
    }
    return rest;
}

/* what is told of this period */
__attribute__((noinline)) static void tell(const struct command *command)
{
    put(0, 0xa55a);
    put(2, periods);
    put(4, command->flags);
    for (int axis = 0; axis < AXES; axis++) {
        put(6 + 8 * axis, (unsigned)axes[axis].raw[0]);
        put(8 + 8 * axis, (unsigned)axes[axis].before);
        put(10 + 8 * axis, (unsigned)axes[axis].integral);
        put(12 + 8 * axis, (unsigned)command->torque[axis]);
    }
    put(30, checksum());
}

/* one period: from the wanted and measured rates of turn to torques */
void attitude(const fixed *wanted, const fixed *measured, struct command *command)
{
    unsigned flags = 0;
    for (int axis = 0; axis < AXES; axis++) {
        command->torque[axis] = controlled(&axes[axis], wanted[axis], measured[axis]);
        if (axes[axis].clipped > 10)
            flags |= 1u << axis;
    }
    command->flags = flags;
    periods++;
    tell(command);
}
