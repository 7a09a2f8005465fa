/* Nothing but the header, and twice: it needs nothing ahead of it. */
#include "ohakelm.h"
#include "ohakelm.h"
