// What the page does when it is opened.
import { start } from "./page.js";

start();
