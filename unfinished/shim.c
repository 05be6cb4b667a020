#include "signalfern.h"
typedef struct { const void *p; size_t n; } sl;
#define F(ret,name,mod,...) extern void i_##name(ret*,__VA_ARGS__) __asm__("impl_" #name)
F(signalfern_reply,signalfern_write,"",sl*,sl*,uint32_t,uint32_t,sl*);
F(signalfern_reply,signalfern_check,"",sl*);
F(signalfern_reply,signalfern_read,"",sl*,sl*,sl*);
F(signalfern_answer,signalfern_look_up,"",sl*,uint32_t);
F(signalfern_column,signalfern_open,"",sl*);
F(signalfern_answer,signalfern_look_up_in,"",signalfern_column*,sl*,uint32_t);
F(signalfern_candidate,signalfern_next_in,"",signalfern_column*,signalfern_cursor*,sl*,uint32_t);
F(signalfern_layered,signalfern_look_up_layered_in,"layers::",signalfern_column*,sl*,signalfern_column*,sl*,uint32_t);
F(signalfern_page,signalfern_look_up_page,"pages::",sl*,sl*,sl*,sl*,sl*);
signalfern_reply signalfern_write(const uint32_t*a,size_t an,const int64_t*b,size_t bn,uint32_t e,uint32_t p,uint8_t*o,size_t on){signalfern_reply r;sl x={a,an},y={b,bn},z={o,on};i_signalfern_write(&r,&x,&y,e,p,&z);return r;}
signalfern_reply signalfern_check(const uint8_t*b,size_t n){signalfern_reply r;sl x={b,n};i_signalfern_check(&r,&x);return r;}
signalfern_reply signalfern_read(const uint8_t*b,size_t n,uint32_t*a,size_t an,int64_t*v,size_t vn){signalfern_reply r;sl x={b,n},y={a,an},z={v,vn};i_signalfern_read(&r,&x,&y,&z);return r;}
signalfern_answer signalfern_look_up(const uint8_t*b,size_t n,uint32_t id){signalfern_answer r;sl x={b,n};i_signalfern_look_up(&r,&x,id);return r;}
signalfern_column signalfern_open(const uint8_t*b,size_t n){signalfern_column r;sl x={b,n};i_signalfern_open(&r,&x);return r;}
signalfern_answer signalfern_look_up_in(signalfern_column c,const uint8_t*b,size_t n,uint32_t id){signalfern_answer r;sl x={b,n};i_signalfern_look_up_in(&r,&c,&x,id);return r;}
signalfern_candidate signalfern_next_in(signalfern_column c,signalfern_cursor u,const uint8_t*b,size_t n,uint32_t id){signalfern_candidate r;sl x={b,n};i_signalfern_next_in(&r,&c,&u,&x,id);return r;}
signalfern_layered signalfern_look_up_layered_in(signalfern_column c,const uint8_t*b,size_t n,signalfern_column c2,const uint8_t*b2,size_t n2,uint32_t id){signalfern_layered r;sl x={b,n},y={b2,n2};i_signalfern_look_up_layered_in(&r,&c,&x,&c2,&y,id);return r;}
signalfern_page signalfern_look_up_page(const uint8_t*b,size_t n,const uint32_t*q,size_t qn,uint64_t*o,size_t on,int64_t*v,size_t vn,uint8_t*k,size_t kn){signalfern_page r;sl x={b,n},a={q,qn},c={o,on},d={v,vn},e={k,kn};i_signalfern_look_up_page(&r,&x,&a,&c,&d,&e);return r;}
