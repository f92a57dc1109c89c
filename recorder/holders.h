/* Who has the most openings, when calls are missed because there is no room for one more. */
#ifndef RECORDER_HOLDERS_H
#define RECORDER_HOLDERS_H

/* Writes a line for each of these processes. */
void holders_tell(void);
#endif
