package check.forms;

@JavaOnlyStableParcelable parcelable Opaque cpp_header "a/{opaque};.h" ndk_header "b.h";
