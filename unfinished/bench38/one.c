#include "signalfern.h"
#include <stdio.h>
#include <stdlib.h>
#include <string.h>
static uint64_t draw(uint64_t s,uint64_t i){uint64_t z=(i+1)*0x9E3779B97F4A7C15ull+s*0xD1B54A32D192ED03ull;z=(z^(z>>30))*0xBF58476D1CE4E5B9ull;z=(z^(z>>27))*0x94D049BB133111EBull;return z^(z>>31);}
static uint32_t density(const char*k){switch(k[0]){case 's':return 655;case 'd':return 19661;default:return 65536;}}
__attribute__((noinline)) void mark(signalfern_column*col,uint8_t*c,size_t cap,uint32_t*hits,int mode){static uint32_t bi[16];static int64_t bv[16];
 for(int i=0;i<1000;i++){ if(mode==0){signalfern_answer a;signalfern_look_up_in_to(col,c,cap,hits[i],&a);} else {signalfern_readout o;signalfern_read_from_in_to(col,c,cap,hits[i],bi,mode,bv,mode,&o);} } }
int main(int argc,char**argv){uint32_t limit=1u<<20;uint32_t*ids=malloc(4*limit);int64_t*vs=malloc(8*limit);size_t n=0;
 for(uint32_t i=0;i<limit;i++) if((draw(1,i)>>48)<density(argv[1])){ids[n]=i;vs[n]=(int64_t)(draw(2,n)>>52)*7-9000;n++;}
 size_t cap=signalfern_write(ids,n,vs,n,1,9,NULL,0).number;uint8_t*c=malloc(cap);signalfern_write(ids,n,vs,n,1,9,c,cap);signalfern_column col=signalfern_open(c,cap);
 uint32_t hits[1000];for(int i=0;i<1000;i++)hits[i]=ids[draw(5,i)%n]; mark(&col,c,cap,hits,atoi(argv[2]));}
