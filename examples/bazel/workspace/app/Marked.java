package shop.app;

/** Stands on a class that the annotation processor makes. */
@shop.proc.Mark
public class Marked {
  public String text() {
    return new MarkedMarked().name();
  }
}
