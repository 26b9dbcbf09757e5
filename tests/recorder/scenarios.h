/* scenarios.h: the scenarios, and what they need of whoever runs them. */
#ifndef SCENARIOS_H
#define SCENARIOS_H

#include "probe.h"

typedef struct { const char *name; void (*run)(void); } SCENARIO;
extern const SCENARIO Scenarios[];
extern const unsigned ScenarioCount;

/* Runs one, and takes down what it built. */
void ScenarioRun(unsigned number);

/* The runner's: returns the driver of a number, 0 to 2, whose DriverEntry is ProbeDriverEntry; or NULL. */
PDRIVER_OBJECT ScenarioDriver(unsigned number);
/* The runner's: a driver or its device can't be made. It doesn't return. */
void ScenarioStops(unsigned number);

#endif
