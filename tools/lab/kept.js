/** The name under which the browser keeps the path of the lab that it used last at this port, for links. */
export const KEPT = "clockbed lab";
