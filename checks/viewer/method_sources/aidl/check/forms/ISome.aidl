package check.forms;

interface ISome {
    oneway void first();
    void second();
    @PermissionManuallyEnforced
    oneway void
    third
    (
    )
    ;
}
