package check.forms;

import check.forms.IPlain;
import check.forms.Opaque;
import check.other.Shape;

@JavaDelegator
interface ITypes {
    List<String> first(in List<String> in_names, out @utf8InCpp List<String> out_names, inout List<String> both);
    @nullable String[] second(in @nullable int[] numbers, out int[4] fixed, inout Shape[] shapes, in int[2][3] grid);
    check.other.Shape third(in Shape shape, in Shape.Corner corner);
    @nullable(heap=true) Shape fourth(in @nullable IPlain plain, in IPlain[] plains);
    ParcelFileDescriptor fifth(in ParcelFileDescriptor file);
    void cpp_header(in List<IPlain> plains, in List < ParcelFileDescriptor > files);
}
