package shop.proc;

/** Asks for a class of the same name with {@code Marked} behind it. */
public @interface Mark {}
