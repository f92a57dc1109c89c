package check.forms;

import check.forms.Opaque;

interface IJava {
    Map<String, List<String>> first(in Map map, in Map<String,List<String>> deep); // `>>` ends two lists
    FileDescriptor second(CharSequence text, in FileDescriptor file, in Opaque opaque);
    @EnforcePermission("A") void third();
    @EnforcePermission(anyOf={"A", "B"}) void fourth();
    @RequiresNoPermission @SuppressWarnings(value={"out-array", "inout-parameter",}) void fifth();
    List sixth(inout List list);
    @UnsupportedAppUsage(maxTargetSdk=28, trackingBug=170729553, expectedSignature="a(){};") void seventh();
    @JavaPassthrough(annotation="@a.b(c = ';}')") void eighth();
}
