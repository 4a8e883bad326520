package kinds;

import java.io.Serializable;

/** A field of each primitive type. */
public final class Fields implements Serializable {
    private static final long serialVersionUID = 2;

    public boolean truth = true;
    public byte small = Byte.MIN_VALUE;
    public char sign = '\uffff';
    public short few = Short.MIN_VALUE;
    public int some = Integer.MIN_VALUE;
    public long many = Long.MIN_VALUE;
    public float part = 1.5f;
    public double share = -0.0;
}
