/* Where document 01's own arithmetic has an invalid operation. */
#ifndef RULES_H
#define RULES_H

int plain_is_invalid(const float torque[3], float thrust);

#endif
