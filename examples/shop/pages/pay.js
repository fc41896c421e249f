// What is asked when a cart is paid.
import {describe} from '../order';
import type {Order, Payment} from '../order';

export const receipt = (order: Order) => describe(order);

export function is_enough(given: string, due: number): boolean {
  return given >= due;
}

export function pay(order: Order, by: string): boolean {
  describe(order, by);
  return "paid";
}

export function change(payment: Payment, due: number): number {
  if (payment.kind !== "cash") {
    return 0;
  }
  return payment.given - due;
}
