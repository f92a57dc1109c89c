/* What a made-up driver has the recorder hear while a look is taken at it: see scene.c. */
#ifndef SCENE_H
#define SCENE_H
#include "made_frame.h"

/* Whether SCENE in the environment names this part: `hang`, `flood` or `hostile`. */
int scene_has(const char *part);
/* The openings, before the recording. */
void scene_meet(void);
/* What comes when the ring is looked at for the `look`th time: messages whose frames have the numbers after `last`. Returns
 * the new last one. */
u64 scene_play(hearer *hear, u64 last, u32 look);
#endif
