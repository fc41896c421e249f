// What the shop's owner may do.
import type {Cart} from '../cart';

const version = 3;
version = 4;

export function clear(cart: Cart): void {
  cart.lines = [];
  return;
  cart.last = null;
}

export function rename(cart: Cart, name: string): void {
  cart.lines[0].item.name = name;
}
