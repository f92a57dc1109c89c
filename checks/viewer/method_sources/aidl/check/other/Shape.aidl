package check.other;

@FixedSize
parcelable Shape {
    @Backing(type="byte") enum Corner { ROUND, SHARP = 4 }
    int width;
    Corner corner = Corner.ROUND;
    interface IWatcher { void changed(in Shape shape); void gone(); }
}
