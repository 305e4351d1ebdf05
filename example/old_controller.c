// The controller of an old cutter, which is big-endian: how fast the blade turns is unsigned, how far it leans is signed, and
// they stand beside each other. ./README.md says how its table was made.

typedef unsigned char u8;
typedef unsigned short u16;
typedef short s16;
typedef unsigned int u32;

enum mode { STOPPED, RUNNING = 3, FAULT = -1 };

union code {
	u16 whole;
	u8 digits[2];
};

// speed in turns a minute, lean in hundredths of a degree
struct controller {
	u32 serial;
	u16 speed;
	s16 lean;
	enum mode mode;
	union code code;
	u16 hot : 1;
	u16 doors : 3;
	s16 trim : 12;
	u16 last[4];
	struct controller *spare;
};

struct controller fitted = { .serial = 7 };
volatile u16 gauge;

int too_fast(const struct controller *controller, u16 most)
{
	return controller->speed > most;
}

void measure(void)
{
	fitted.speed = gauge;
}
