// The codes of the one interface that a source implements may be outside of its class.
namespace check {
namespace {
enum {
    OPEN = IBinder::FIRST_CALL_TRANSACTION,
    CLOSE,
};
}  // namespace

class BpOutside : public BpInterface<IOutside> {};

IMPLEMENT_META_INTERFACE(Outside, "check.hand.IOutside")
}  // namespace check
