package shop.app;

/** Prints a sum of generated rows and of a library. */
public class Main {
  public static void main(String[] words) {
    System.out.println(shop.gen.Table.ROWS.length + " " + new shop.p7.C0().total(3));
  }
}
