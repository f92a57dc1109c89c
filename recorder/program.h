/* The program that runs during the recording. */
#ifndef RECORDER_PROGRAM_H
#define RECORDER_PROGRAM_H

/* Saves the actions of signals, which the program will have. */
void program_keep_signals(void);
/* Creates the process. It waits for program_go. */
void program_prepare(char **words);
void program_go(void);
/* Whether the program has ended, or there is none. */
int program_has_ended(void);
int program_is_there(void);
/* Waits until it ends, or a signal comes. */
void program_wait(void);
/* Its exit status, or 128 and its signal; 0 if there is no program, or it has not ended. */
int program_status(void);
#endif
