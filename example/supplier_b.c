// The measuring program of supplier B's blade: a temperature is signed, in hundredths of a degree.
// Its struct has the name of supplier A's, and its bytes mean something else.

typedef short s16;
typedef s16 centi;
typedef struct { char text[8]; } label;

struct cutter;

enum side { LEFT = -1, MIDDLE, RIGHT };

// gain and offset of the sensor: true = gain * read + offset
struct scale {
	float gain;
	double offset;
};

struct blade {
	centi temperature;
	s16 bent : 5;
	enum side side;
	label name;
	struct scale *scale;
	struct cutter *cutter;
	int (*check)(const struct blade *blade, centi most);
	unsigned long long cuts;
	__int128 torque;
};

struct blade mounted;
struct scale own = { 1.0f, 0.5 };

static __attribute__((noinline)) int colder(struct blade *restrict blade, centi most)
{
	return blade->temperature < most;
}

int measure(centi read)
{
	mounted.temperature = read;
	return colder(&mounted, read);
}
