mod devices;
mod following;
mod known;
mod plans;
mod texts;
