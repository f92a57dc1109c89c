/*
 * A licence with { braces }, a semicolon; and void wrong(); in it.
 */
package check.forms; // interface INot { void wrong(); }

/** Comments of all kinds. @hide {@link IPlain#first()} */
interface IComments { // {
    /* void wrong(); */ void first();
    /** "a string that does not end
     * and 'one more
     */
    void /* between */ second /* name and */ ( /* in int wrong, */ ) /* and its end */ ;
    // void wrong(); /* and no comment begins here
    void third();
    /**/ void fourth(); /***/ void fifth(); /*/ void wrong(); /*/ void sixth();
    /* // */ void seventh(); /* * / ** */
    //// */ void wrong();
    void eighth(); // the last line but one, \
    void ninth();
}
// no newline at the end }
// void wrong();