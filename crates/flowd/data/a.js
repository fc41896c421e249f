export const x: number = "a";
export const y: boolean = true;
