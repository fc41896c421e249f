// A cart, which knows the last order, which has a cart: this module and order.js import one another.
import type {Money} from './money';
import type {Order} from './order';

export type Item = {+name: string, price: Money, note: ?string};
export type Line = {item: Item, count: number};
export type Cart = {lines: Array<Line>, last: ?Order};

export function count(cart: Cart): number {
  let sum = 0;
  let place = 0;
  while (place < cart.lines.length) {
    sum = sum + cart.lines[place].count;
    place = place + 1;
  }
  return sum;
}
