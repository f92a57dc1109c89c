package check.other;

@Descriptor(value="check.other.IFormer")
interface IRenaming {
    void union_of();
    void in_();
    void TRANSACTION_one();
    void _a1();
    interface IInner { void inner(); }
}
