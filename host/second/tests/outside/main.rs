//! The second program against what is none of ours: MD5 by tools of the machine, the layouts and
//! worklists by Python, and what the sources print. A tool that is not there is said and left out.

mod layouts;
mod md5;
mod printed;
mod tools;
mod worklists;
