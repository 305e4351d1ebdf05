// One reading of supplier B's newer sensor: what it measured is a temperature or a lean of both sides, in the same bytes.
// The union has no name, and neither has the struct in it, so that C reads degrees, left and right as members of the reading.

struct reading {
	unsigned int sensor;
	union {
		unsigned short degrees;
		struct {
			signed char left;
			signed char right;
		};
	};
	unsigned short hot : 1;
	unsigned short kept : 15;
};

struct reading last;
