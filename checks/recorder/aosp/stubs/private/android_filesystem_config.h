/* Android's numbers of users. */
#pragma once
#define AID_ROOT 0
#define AID_SYSTEM 1000
#define AID_APP 10000
#define AID_APP_START 10000
#define AID_ISOLATED_START 99000
#define AID_ISOLATED_END 99999
#define AID_USER 100000
#define AID_USER_OFFSET 100000
