// An order. What is paid with is one of two kinds, and the property `kind` tells which.
import {count} from './cart';
import type {Cart} from './cart';

export type Payment = {kind: "card", digits: string} | {kind: "cash", given: number};
export type Order = {cart: Cart, payment: Payment};

export function describe(order: Order): string {
  const payment = order.payment;
  if (payment.kind === "card") {
    return count(order.cart) + " by card " + payment.digits;
  }
  return count(order.cart) + " in cash, of " + payment.given;
}
